li a0,'x'
