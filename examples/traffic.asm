; Lights for two roads. Start the clock; RST 1 is the button of somebody who wants to walk.
; lab80: lights, clock 7, bell
        ORG 8           ; RST 1 calls this
        MVI D,1         ; somebody wants to walk
        EI
        RET
        ORG 38H         ; RST 7 does: the clock
        DCR C           ; so many ticks are left
        EI
        RET
        ORG 100H
START:  DI
        LXI SP,1000H
        MVI D,0
AGAIN:  LXI H,TABLE
PHASE:  MOV A,M
        ORA A           ; the end of the table
        JZ WALK
        INX H
        MOV C,M         ; how long the lights stay
        INX H
        CALL LIGHTS
        JMP PHASE
; When both roads are red, walkers go, if there are any. The bell rings.
WALK:   DCR D
        MVI D,0
        JNZ AGAIN
        MVI A,07H
        OUT 1
        MVI A,10001001B
        MVI C,4
        CALL LIGHTS
        JMP AGAIN
; Shows A on the lights for C ticks.
LIGHTS: OUT 2
REST:   EI
        HLT             ; until a tick, or somebody who wants to walk
        DI
        MOV A,C
        ORA A
        JNZ REST
        RET
; The lights and their ticks. From the right: red, yellow and green of
; the first road, of the second one, and stop and walk.
TABLE:  DB 01001100B,4
        DB 01001010B,1
        DB 01001001B,1
        DB 01011001B,1
        DB 01100001B,4
        DB 01010001B,1
        DB 01001001B,1
        DB 0
        END START
