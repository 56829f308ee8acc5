; Draws triangles in triangles: a dot is lit where one of the two above it is.
; lab80: bitmap SCREEN
SCREEN  EQU 4000H
WIDTH   EQU 32          ; bytes in a row
        ORG 100H
START:  LXI SP,1000H
        LXI H,SCREEN    ; HL: a row
        MVI B,WIDTH
CLEAR:  MVI M,0         ; the first one has one dot
        INX H
        DCR B
        JNZ CLEAR
        DCX H
        MVI M,1         ; on the right
        LXI D,SCREEN+2*WIDTH-1
        MVI C,191       ; rows that follow
; From the right to the left: DE is a byte of the row below, HL the one above it.
ROW:    MVI B,WIDTH
        ORA A           ; CY: no dot comes in from the right
BYTE:   MOV A,M
        RAL             ; the dots on the right, and the last one of the byte before
        PUSH PSW
        XRA M           ; one of the two, and not both
        STAX D
        POP PSW         ; CY: the dot that goes on to the left
        DCX H
        DCX D
        DCR B
        JNZ BYTE
        LXI H,WIDTH
        DAD D
        PUSH H          ; the last byte of the row that was drawn
        LXI D,WIDTH
        DAD D
        XCHG            ; that of the next one
        POP H
        DCR C
        JNZ ROW
        HLT
        END START
