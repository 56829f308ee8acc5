       ORG 100H
MAIN:  DB 0,0
       DB 0,0
       HLT
       END MAIN
