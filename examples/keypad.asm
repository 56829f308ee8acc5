; Each key of the keypad comes in from the right, as on a calculator. With E the digits are 0 again.
; lab80: keypad, digits NUMBER 2, bell
        ORG 100H
START:  LXI SP,1000H
CLEAR:  LXI H,0
        SHLD NUMBER
KEY:    IN 0            ; bit 0 says whether a key was pressed
        ANI 1
        JZ KEY
        IN 1
        CPI 'E'
        JZ CLEAR
        SUI '0'
        CPI 10
        JNC OTHER       ; no digit
        LHLD NUMBER
        DAD H           ; moves all four digits to the left
        DAD H
        DAD H
        DAD H
        ORA L
        MOV L,A
        SHLD NUMBER
        JMP KEY
OTHER:  MVI A,07H       ; the bell
        OUT 1
        JMP KEY
NUMBER: DW 0
        END START
