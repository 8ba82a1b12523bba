# Fills 512 words from 0x200000 on with a linear congruence, sorts them by insertion, and starts again.
  lui  s2, 0x200          # the first word
  addi s3, s2, 1024
  addi s3, s3, 1024       # the end
  addi s4, zero, 1        # the last number
  lui  s5, 0x196         # 1664525
  addi s5, s5, 0x60D
  lui  s6, 0x3C6EF        # 1013904223
  addi s6, s6, 863
again:
  add  t0, s2, zero
fill:
  mul  s4, s4, s5
  add  s4, s4, s6
  sw   s4, 0(t0)
  addi t0, t0, 4
  bltu t0, s3, fill
  addi t0, s2, 4
insert:
  lw   t1, 0(t0)
  add  t2, t0, zero
shift:
  lw   t3, -4(t2)
  bgeu t1, t3, place
  sw   t3, 0(t2)
  addi t2, t2, -4
  bne  t2, s2, shift
place:
  sw   t1, 0(t2)
  addi t0, t0, 4
  bltu t0, s3, insert
  jal  zero, again
