# tools/benchmark-program.c as clang writes it for MIPS at -O1, without delay slots, with a start that calls
# `program` for ROUNDS rounds and exits with what it gives
.text 0x00400000
.entry start
start:       ADDIU $4,$0,ROUNDS
             JAL program
             ADDU $4,$2,$0
             ADDIU $2,$0,1
             SYSCALL
next_random: LUI $1,16838
             ORI $1,$1,20077
             LUI $2,4096
             LW $3,0($2)
             MULT $3,$1
             MFLO $1
             ADDIU $1,$1,12345
             SW $1,0($2)
             SRL $2,$1,8
             JR $31
sort:        SLT $1,$5,$6
             BEQ $1,$0,L1_10
             ADDIU $29,$29,-32
             SW $31,28($29)
             SW $18,24($29)
             SW $17,20($29)
             SW $16,16($29)
             ADDU $16,$6,$0
             ADDU $17,$4,$0
             ADDU $1,$6,$5
             SLL $1,$1,1
             ADDIU $2,$0,-4
             AND $1,$1,$2
             ADDU $1,$4,$1
             LW $2,0($1)
             ADDIU $3,$4,4
             ADDU $18,$5,$0
             J L1_3
L1_2:        SLT $1,$6,$18
             BNE $1,$0,L1_9
L1_3:        SLL $1,$18,2
             ADDU $7,$17,$1
             ADDU $4,$18,$0
L1_4:        LW $8,0($7)
             SLT $1,$8,$2
             ADDIU $7,$7,4
             ADDIU $4,$4,1
             BNE $1,$0,L1_4
             SLL $1,$6,2
             ADDU $9,$3,$1
             ADDIU $18,$4,-1
             ADDU $10,$6,$0
L1_6:        LW $11,-4($9)
             SLT $1,$2,$11
             ADDIU $9,$9,-4
             ADDIU $10,$10,-1
             BNE $1,$0,L1_6
             ADDIU $6,$10,1
             SLT $1,$6,$18
             BNE $1,$0,L1_2
             SW $11,-4($7)
             SW $8,0($9)
             ADDU $6,$10,$0
             ADDU $18,$4,$0
             J L1_2
L1_9:        ADDU $4,$17,$0
             JAL sort
             ADDU $4,$17,$0
             ADDU $5,$18,$0
             ADDU $6,$16,$0
             JAL sort
             LW $16,16($29)
             LW $17,20($29)
             LW $18,24($29)
             LW $31,28($29)
             ADDIU $29,$29,32
L1_10:       JR $31
insert:      ADDIU $29,$29,-24
             SW $31,20($29)
             SW $16,16($29)
             BEQ $4,$0,L2_3
             ADDU $16,$4,$0
             LW $1,0($4)
             SLT $1,$5,$1
             BEQ $1,$0,L2_4
             LW $4,4($16)
             JAL insert
             SW $2,4($16)
             J L2_5
L2_3:        LUI $1,4096
             LW $2,4($1)
             ANDI $3,$2,1023
             ADDIU $2,$2,1
             SW $2,4($1)
             SLL $1,$3,2
             SLL $2,$3,3
             ADDU $1,$2,$1
             LUI $2,4096
             ADDIU $2,$2,8192
             ADDU $16,$2,$1
             SW $5,0($16)
             SW $0,8($16)
             SW $0,4($16)
             J L2_5
L2_4:        LW $4,8($16)
             JAL insert
             SW $2,8($16)
L2_5:        ADDU $2,$16,$0
             LW $16,16($29)
             LW $31,20($29)
             ADDIU $29,$29,24
             JR $31
height:      BEQ $4,$0,L3_4
             ADDIU $29,$29,-32
             SW $31,28($29)
             SW $17,24($29)
             SW $16,20($29)
             ADDU $17,$4,$0
             LW $4,4($4)
             JAL height
             ADDU $16,$2,$0
             LW $4,8($17)
             JAL height
             SLT $1,$2,$16
             BNE $1,$0,L3_3
             ADDU $16,$2,$0
L3_3:        ADDIU $2,$16,1
             LW $16,20($29)
             LW $17,24($29)
             LW $31,28($29)
             ADDIU $29,$29,32
             JR $31
L3_4:        ADDIU $2,$0,0
             JR $31
hash:        ADDIU $2,$0,5381
             BLEZ $5,L4_2
L4_1:        SLL $1,$2,5
             ADDU $1,$1,$2
             LB $2,0($4)
             XOR $2,$1,$2
             ADDIU $4,$4,1
             ADDIU $5,$5,-1
             BNE $5,$0,L4_1
L4_2:        JR $31
classify:    ANDI $3,$4,7
             SLTI $1,$3,2
             BNE $1,$0,L5_5
L5_1:        ADDIU $1,$0,2
             BEQ $3,$1,L5_8
L5_2:        ADDIU $1,$0,3
             BEQ $3,$1,L5_9
L5_3:        ADDIU $1,$0,4
             BNE $3,$1,L5_10
L5_4:        XORI $2,$4,85
             JR $31
L5_5:        ADDIU $2,$0,3
             BEQ $3,$0,L5_11
L5_6:        ADDIU $1,$0,1
             BNE $3,$1,L5_10
L5_7:        SRA $2,$4,2
             JR $31
L5_8:        SUBU $2,$0,$4
             JR $31
L5_9:        SLL $1,$4,2
             ADDU $2,$1,$4
             JR $31
L5_10:       LUI $1,37449
             ORI $1,$1,9363
             MULT $4,$1
             MFHI $1
             ADDU $1,$1,$4
             SRL $2,$1,31
             SRA $1,$1,2
             ADDU $1,$1,$2
             SLL $2,$1,3
             SUBU $1,$1,$2
             ADDU $2,$4,$1
L5_11:       JR $31
program:     ADDIU $29,$29,-64
             SW $31,60($29)
             SW $30,56($29)
             SW $23,52($29)
             SW $22,48($29)
             SW $21,44($29)
             SW $20,40($29)
             SW $19,36($29)
             SW $18,32($29)
             SW $17,28($29)
             SW $16,24($29)
             SW $4,20($29)
             BLEZ $4,L6_10
             ADDIU $19,$0,0
             LUI $20,4096
             ADDIU $21,$20,4096
             LUI $1,4096
             ADDIU $23,$1,20480
             ADDIU $30,$0,4096
             ADDIU $22,$0,1024
             ADDIU $16,$0,0
L6_2:        ADDIU $17,$0,0
L6_3:        ADDU $18,$21,$17
             JAL next_random
             ANDI $1,$2,65535
             SW $1,0($18)
             ADDU $1,$23,$17
             SRL $3,$2,8
             SB $3,1($1)
             SB $2,0($1)
             ADDIU $17,$17,4
             BNE $17,$30,L6_3
             LUI $1,4096
             SW $0,4($1)
             ADDIU $18,$0,0
             ADDIU $2,$0,0
L6_5:        ADDIU $17,$20,4096
             ADDU $1,$17,$18
             LW $5,0($1)
             ADDU $4,$2,$0
             JAL insert
             ADDIU $18,$18,4
             BNE $18,$22,L6_5
             ADDU $4,$2,$0
             JAL height
             ADDU $18,$2,$0
             ADDU $4,$17,$0
             ADDIU $5,$0,0
             ADDIU $6,$0,1023
             JAL sort
             ADDU $1,$18,$16
             SLL $2,$1,5
             SUBU $1,$2,$1
             ANDI $2,$19,1023
             SLL $2,$2,2
             ADDU $2,$17,$2
             LW $2,0($2)
             ADDU $16,$1,$2
             LUI $1,4096
             ADDIU $4,$1,20480
             ADDIU $5,$0,4096
             JAL hash
             ADDIU $18,$0,-4
             XOR $16,$16,$2
L6_7:        LW $4,0($17)
             JAL classify
             ADDU $16,$2,$16
             ADDIU $17,$17,16
             ADDIU $18,$18,4
             SLTIU $1,$18,1020
             BNE $1,$0,L6_7
             ADDIU $19,$19,1
             LW $1,20($29)
             BNE $19,$1,L6_2
             ANDI $2,$16,255
             J L6_11
L6_10:       ADDIU $2,$0,0
L6_11:       LW $16,24($29)
             LW $17,28($29)
             LW $18,32($29)
             LW $19,36($29)
             LW $20,40($29)
             LW $21,44($29)
             LW $22,48($29)
             LW $23,52($29)
             LW $30,56($29)
             LW $31,60($29)
             ADDIU $29,$29,64
             JR $31
.data 0x10000000
seed:        .word 1
used:        .word 0
.bss 0x10001000
values:      .space 4096
pool:        .space 12288
text:        .space 4096
