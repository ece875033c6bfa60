  GNU nano 7.2                        text.txt                        Modified  
 20 The quick brown fox jumps over the lazy dog. ======                         
 21 The quick brown   1 The quick brown fox jumps over the lazy dog. The quick >
  2 The quick brown fox jumps over the lazy dog. ==                             
fox jumps over the lazy dog. The quick brown fox jumps over the lazy dog.       
 22 The quick brown fox jumps over the lazy dog. =                              
 23 The quick brown fox jumps over the lazy dog. The quick brown fox jumps over>
 24 The quick brown fox jumps over the lazy dog. ===                            
 25 The quick brown fox jumps over the lazy dog. The quick brown fox jumps over>
 26 The quick brown fox jumps over the lazy dog. =====                          
 27 The quick brown fox jumps over the lazy dog. The quick brown fox jumps over>
 28 The quick brown fox jumps over the lazy dog.                                
 29 The quick brown fox jumps over the lazy dog. The quick brown fox jumps over>
 30 The quick brown fox jumps over the lazy dog. ==                             
 31 The quick brown fox jumps over the lazy dog. The quick brown fox jumps over>
 32 The quick brown fox jumps over the lazy dog. ====                           
 33 The quick brown fox jumps over the lazy dog. The quick brown fox jumps over>
 34 The quick brown fox jumps over the lazy dog. ======                         
 35 The quick brown fox jumps over the lazy dog. The quick brown fox jumps over>
 36 The quick brown fox jumps over the lazy dog. =                              
 37 The quick brown fox jumps over the lazy dog. The quick brown fox jumps over>
                                                                                
^G Help      ^O Write Out ^W Where Is  ^K Cut       ^T Execute   ^C Location    
^X Exit      ^R Read File ^\ Replace   ^U Paste     ^J Justify   ^/ Go To Line  
cursor 7 0
look 0 0-79 R
look 2 79-79 R
look 6 79-79 R
look 8 79-79 R
look 10 79-79 R
look 12 79-79 R
look 14 79-79 R
look 16 79-79 R
look 18 79-79 R
look 20 79-79 R
look 22 0-1 R
look 22 13-14 R
look 22 26-27 R
look 22 39-40 R
look 22 52-53 R
look 22 65-66 R
look 23 0-1 R
look 23 13-14 R
look 23 26-27 R
look 23 39-40 R
look 23 52-53 R
look 23 65-66 R
