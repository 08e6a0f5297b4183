# A branch that is taken, with a load and a store behind it that are on the wrong path where it is predicted
# not to be. examples/branch.ptrace has the cycles of this program.
.text 0x00400000
       ADDIU $9,$0,1
       BNE   $9,$0,taken
       LW    $10,0($29)
       SW    $10,4($29)
       NOP
       NOP
taken: ADDIU $2,$0,1
       ADDIU $4,$0,0
       SYSCALL
