       ORG 100H
MAIN:  MVI A,0FFH
       MVI B,3
       MVI C,0AH
       MVI D,2
       MVI E,2
       MVI H,2
       MVI L,34H
       LXI SP,0FFFFH
       MVI M,3
       MVI A,0E9H
       OUT 1
       MVI A,7
       OUT 1
       HLT
ROOM:  DS 1
       END MAIN
