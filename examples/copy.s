# copies the file that its argument names to its output, 16 bytes at once, and exits with the sum of the
# bytes modulo 256; where a call is refused it exits with the number of the error
.text 0x00400000
       LW    $4,8($29)        # the argument
       ADDU  $5,$0,$0         # to be read
       ADDIU $2,$0,5          # the call "open"
       SYSCALL
       BNE   $7,$0,fail
       ADDU  $16,$2,$0        # its descriptor
       LUI   $17,4096         # the buffer begins where the break stands
       ADDIU $4,$17,16        # and has 16 bytes
       ADDIU $2,$0,17         # the call "brk"
       SYSCALL
       BNE   $7,$0,fail
       ADDU  $18,$0,$0        # the sum
copy:  ADDU  $4,$16,$0
       ADDU  $5,$17,$0
       ADDIU $6,$0,16
       ADDIU $2,$0,3          # the call "read"
       SYSCALL
       BNE   $7,$0,fail
       BEQ   $2,$0,done       # nothing was left
       ADDU  $6,$2,$0
       ADDU  $8,$17,$0
       ADDU  $9,$17,$2
sum:   LBU   $10,0($8)
       ADDU  $18,$18,$10
       ADDIU $8,$8,1
       BNE   $8,$9,sum
       ADDIU $4,$0,1
       ADDIU $2,$0,4          # the call "write"
       SYSCALL
       J     copy
done:  ANDI  $4,$18,255
       ADDIU $2,$0,1          # the call "exit"
       SYSCALL
fail:  ADDU  $4,$2,$0
       ADDIU $2,$0,1
       SYSCALL
