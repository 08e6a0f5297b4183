# adds the numbers from 4 down to 1 and exits with the sum
.text 0x00400000
       ADDIU $8,$0,4
       ADDU  $4,$0,$0
next:  ADDU  $4,$4,$8
       ADDIU $8,$8,-1
       BNE   $8,$0,next
       ADDIU $2,$0,1      # the call "exit", with the code in register 4
       SYSCALL
