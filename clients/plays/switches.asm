       ORG 100H
MAIN:  IN 2
       OUT 1
       HLT
       END MAIN
