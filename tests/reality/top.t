top - 20:55:37 up 55 min,  0 user,  load average: 10.36, 10.11, 7.92            
Tasks:   3 total,   1 running,   2 sleeping,   0 stopped,   0 zombie            
%Cpu(s):100.0 us,  0.0 sy,  0.0 ni,  0.0 id,  0.0 wa,  0.0 hi,  0.0 si,  0.0 st 
MiB Mem :  24104.7 total,   7741.4 free,   7884.4 used,   8856.7 buff/cache     
MiB Swap:      0.0 total,      0.0 free,      0.0 used.  16220.3 avail Mem      
                                                                                
    PID USER      PR  NI    VIRT    RES    SHR S  %CPU  %MEM     TIME+ COMMAND  
      1 root      20   0    2592   1772   1668 S   0.0   0.0   0:00.00 sh -c s+ 
      2 root      20   0    2500   1468   1372 S   0.0   0.0   0:00.00  `- sle+ 
      3 root      20   0    8656   5036   2940 R   0.0   0.0   0:00.00  `- top+ 
                                                                                
                                                                                
                                                                                
                                                                                
                                                                                
                                                                                
                                                                                
                                                                                
                                                                                
                                                                                
                                                                                
                                                                                
                                                                                
                                                                                
cursor 23 0
look 1 6-10 B
look 1 17-21 B
look 1 30-34 B
look 1 44-48 B
look 1 57-61 B
look 2 8-13 B
look 2 17-22 B
look 2 26-31 B
look 2 35-40 B
look 2 44-49 B
look 2 53-58 B
look 2 62-67 B
look 2 71-76 B
look 3 9-18 B
look 3 25-34 B
look 3 40-49 B
look 3 55-64 B
look 4 9-18 B
look 4 25-34 B
look 4 40-49 B
look 4 55-64 B
look 6 0-78 R
look 9 0-78 B
