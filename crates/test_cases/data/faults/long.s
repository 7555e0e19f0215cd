 .space 65540
