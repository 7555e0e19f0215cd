# an image of 70,000 bytes, the last four of them 13
 .space 69996
 .word 0x13131313
