; The arrows move a pen over the screen of characters; the key in the middle lifts it, or puts it down.
; lab80: text SCREEN, arrows
SCREEN  EQU 8000H
COLUMNS EQU 64
        ORG 8           ; RST 1 to RST 5: up, down, left, right, and the one in the middle
        LXI D,-COLUMNS
        JMP MOVE
        ORG 10H
        LXI D,COLUMNS
        JMP MOVE
        ORG 18H
        LXI D,-1
        JMP MOVE
        ORG 20H
        LXI D,1
        JMP MOVE
        ORG 28H
        MOV A,B
        XRI '*' XOR ' ' ; a star or a blank
        MOV B,A
        RET
        ORG 100H
START:  DI
        LXI SP,1000H
        LXI H,SCREEN+8*COLUMNS+32
        MVI B,'*'       ; what the pen leaves
        MVI M,80H+'*'   ; the pen: bit 7 reverses a character
WAIT:   EI
        HLT             ; until a key is pressed
        JMP WAIT
; Moves the pen by DE, as long as it stays on the screen.
MOVE:   PUSH H
        DAD D
        MOV A,H
        ANI 0FCH        ; 1,024 bytes from SCREEN on
        CPI HIGH SCREEN
        JNZ BACK
        XTHL            ; where it was
        MOV M,B
        POP H
        MVI M,80H+'*'
        RET
BACK:   POP H
        RET
        END START
