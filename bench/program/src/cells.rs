//! Four endless workloads as cells: those of `bench/core`, byte for byte, and a jump to itself; at their end
//! a HLT that isn't reached.

/// Two nested counters, counted down.
static LOOP: &str = "\
START: MVI B,0
       MVI C,0
INNER: DCR C
       JNZ INNER
       DCR B
       JNZ INNER
       JMP START
       HLT
";

/// A page of bytes, made anew and sorted by exchanges.
static SORT: &str = "\
       LXI SP,3000H
FILL:  LXI H,2000H
NEXT:  MOV A,B
       RLC
       ADD B
       ADI 3BH
       MOV B,A
       MOV M,A
       INR L
       JNZ NEXT
PASS:  LXI H,2000H
       MVI C,0
       MVI D,0FFH
PAIR:  MOV A,M
       INX H
       CMP M
       JC KEEP
       JZ KEEP
       MOV E,M
       MOV M,A
       DCX H
       MOV M,E
       INX H
       MVI C,1
KEEP:  DCR D
       JNZ PAIR
       MOV A,C
       ORA A
       JNZ PASS
       INR B
       JMP FILL
       HLT
";

/// Arithmetic and logic in a subroutine that calls another.
static CALLS: &str = "\
       LXI SP,4000H
AGAIN: MVI A,1
NEXT:  CALL MIX
       INR A
       JNZ NEXT
       JMP AGAIN
       NOP
MIX:   PUSH B
       MOV B,A
       ADD A
       XRA B
       ANI 3FH
       ADC B
       RAL
       SUB H
       SBI 5
       DAA
       CMA
       MOV L,A
       CALL TWIST
       MOV A,B
       POP B
       RET
TWIST: ORA B
       CMC
       RNC
       MOV H,A
       RET
       HLT
";

/// A jump to itself.
static JUMP: &str = "X: JMP X\n   HLT\n";

/// A workload: its text, and the line of its HLT.
#[derive(Clone, Copy)]
pub struct Workload {
    pub text: &'static str,
    pub last_line: u32,
}

/// The workload of this name.
pub fn workload_named(name: &str) -> Option<Workload> {
    match name {
        "loop" => Some(Workload {
            text: LOOP,
            last_line: 8,
        }),
        "sort" => Some(Workload {
            text: SORT,
            last_line: 32,
        }),
        "calls" => Some(Workload {
            text: CALLS,
            last_line: 29,
        }),
        "jump" => Some(Workload {
            text: JUMP,
            last_line: 2,
        }),
        _ => None,
    }
}
