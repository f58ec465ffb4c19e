Format_ID=Ancillary Data Standard 1.00
Separator_Strategy=LLC014
MiniChunk=MARKChunk_Serial_Number=#20240229123456789SURVEYDESK0100007002
Chunk_Recording_Date=20240229
Chunk_Recording_Agent=RECORDER                        
Chunk_Writing_Date=20240301
Chunk_Writing_Agent=DESK                            
Chunk_Integrity_Checksum=064
MiniChunk=MARK