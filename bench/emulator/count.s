# Counts down from 0x4000000, and starts again.
again:
  lui  t0, 0x4000
loop:
  addi t0, t0, -1
  bne  t0, zero, loop
  jal  zero, again
