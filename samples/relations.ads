Format_ID=Ancillary Data Standard 1.00
Separator_Strategy=LLC000
Chunk_Serial_Number=#20240229123456789SURVEYDESK0100007002
Chunk_Recording_Date=20240229
Chunk_Recording_Agent=RECORDER                        
Chunk_Writing_Date=20240301
Chunk_Writing_Agent=DESK                            
Chunk_Integrity_Checksum=077
Chunk_Header_Length=000000000536
SubFormat_ID=ADS\DATA\TEST                                                                                                                                                                                                                                                   
Generic_Type=TXT
Chunk_Time_Synch_Type=GEN
Chunk_Time_Standard=UTC                                      
Chunk_Time_Offset=+0000      8.035
Chunk_Event_Synch=NUL                                      
Chunk_Dependency_Length=000000000029
Chunk_Dependency_Count=0000
Chunk_Content_Length=000000000004
abcChunk_Serial_Number=#20240229123456789SURVEYDESK0100042001
Chunk_Recording_Date=20240229
Chunk_Recording_Agent=RECORDER                        
Chunk_Writing_Date=20240301
Chunk_Writing_Agent=DESK                            
Chunk_Integrity_Checksum=122
Chunk_Header_Length=000000001224
SubFormat_ID=ADS\DATA\EDIT                                                                                                                                                                                                                                                   
Generic_Type=TXT
Chunk_Time_Synch_Type=GEN
Chunk_Time_Standard=UTC                                      
Chunk_Time_Offset=+0000      8.035
Chunk_Event_Synch=NUL                                      
Chunk_Dependency_Length=000000000717
Chunk_Dependency_Count=0002
Dependency_Serial_Number=#20240229123456789SURVEYDESK0100042001
Dependency_SubFormatID=ADS\DATA\TEST                                                                                                                                                                                                                                                   
Dependency_Serial_Number=#20240229123456789SURVEYDESK0100048007
Dependency_SubFormatID=ADS\DATA\GRID                                                                                                                                                                                                                                                   
Chunk_Content_Length=000000000008
edited
Chunk_Serial_Number=#20240229123456789SURVEYDESK0100043002
Chunk_Recording_Date=20240229
Chunk_Recording_Agent=RECORDER                        
Chunk_Writing_Date=20240301
Chunk_Writing_Agent=DESK                            
Chunk_Integrity_Checksum=136
Chunk_Header_Length=000000000536
SubFormat_ID=ADS\SYS\Relations                                                                                                                                                                                                                                               
Generic_Type=TXT
Chunk_Time_Synch_Type=GEN
Chunk_Time_Standard=UTC                                      
Chunk_Time_Offset=+0000      8.035
Chunk_Event_Synch=NUL                                      
Chunk_Dependency_Length=000000000029
Chunk_Dependency_Count=0000
Chunk_Content_Length=000000002575
ADS Metafile Master Relation Chunk Revision 1.00	Child serial number	Child sub-format ID	Parent serial number	Parent sub-format ID
line 7, by the recorder
ADS relation	#20240229123456789SURVEYDESK0100043002	ADS\DATA\EDIT                                                                                                                                                                                                                                                   	#20240229123456789SURVEYDESK0100042001	ADS\DATA\TEST                                                                                                                                                                                                                                                   
ADS relation	#20240229123456789SURVEYDESK0100043002	ADS\DATA\EDIT                                                                                                                                                                                                                                                   	#20240229123456789SURVEYDESK0100048007	ADS\DATA\GRID                                                                                                                                                                                                                                                   
ADS relation	#20240229123456789SURVEYDESK0100043002	ADS\DATA\EDIT                                                                                                                                                                                                                                                   	#20240229123456789SURVEYDESK0100042001	ADS\DATA\GRID                                                                                                                                                                                                                                                   
ADS relation	#20240229123456789SURVEYDESK0100043002	ADS\DATA\EDIT                                                                                                                                                                                                                                                   	#20240229123456789SURVEYDESK0100042001ADS\DATA\TEST                                                                                                                                                                                                                                                   
Chunk_Serial_Number=#20240229123456789SURVEYDESK0100044003
Chunk_Recording_Date=20240229
Chunk_Recording_Agent=RECORDER                        
Chunk_Writing_Date=20240301
Chunk_Writing_Agent=DESK                            
Chunk_Integrity_Checksum=009
