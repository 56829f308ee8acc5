       ORG 100H
MAIN:  DB 8
       IN 2
       OUT 1
       HLT
       END MAIN
