# A board for images of kokarv: the machine `virt` of qemu-system-riscv32.
#
# It enters the image in user mode, and serves its three calls on the machine's serial line. docs/board.md explains it.
# A board of your own keeps `trap` and what it calls, puts its own device in place of the serial line, and needs the page
# table only where its RAM does not begin at address 0x10000 or below.

        .equ    TEXT, 0x10000               # where the text of an image stands, and its first instruction
        .equ    RAM, 0x80400000             # address 0 of the image lies here: a multiple of 4 MiB
        .equ    LARGE_PAGES, 60             # pages of 4 MiB that the image may use

        .equ    CALL_READ, 63
        .equ    CALL_WRITE, 64
        .equ    CALL_EXIT, 93
        .equ    CAUSE_USER_CALL, 8          # the trap's cause at an ECALL in user mode

        .equ    SERIAL, 0x10000000          # a 16550: the byte to send or that came in, and its state 5 bytes behind
        .equ    SERIAL_STATE, 5
        .equ    BYTE_CAME, 0x01
        .equ    MAY_SEND, 0x20
        .equ    END_OF_INPUT, 4             # Ctrl-D: a serial line has no end of its own

        .equ    ENDED, 16                   # of `saved`, behind four registers: whether the input has ended

        .equ    POWER, 0x00100000           # ends the emulator, with a status
        .equ    POWER_OFF, 0x5555           # with status 0
        .equ    POWER_FAIL, 0x3333          # with the status in the upper half

        .equ    NO_IMAGE_TRAP, 120          # the status where the image was left by another trap: it never is

# ---- the start

        .section .text
        .globl  _start
_start:
        la      t0, trap
        csrw    mtvec, t0
        la      t0, saved
        csrw    mscratch, t0
        sw      zero, ENDED(t0)

        # user mode may use all of the memory that the page table maps
        li      t0, -1
        csrw    pmpaddr0, t0
        li      t0, 0x1f                    # NAPOT, read, write, execute
        csrw    pmpcfg0, t0

        # the page table: the image's address a is the RAM's address RAM + a, in large pages
        la      t0, table
        li      t1, (RAM >> 2) | 0xdf       # dirty, accessed, user, execute, write, read, valid
        li      t2, 4 << 20 >> 2            # from one large page to the next
        li      t3, LARGE_PAGES
1:      sw      t1, 0(t0)
        add     t1, t1, t2
        addi    t0, t0, 4
        addi    t3, t3, -1
        bnez    t3, 1b
        la      t0, table
        srli    t0, t0, 12
        li      t1, 1 << 31                 # Sv32
        or      t0, t0, t1
        csrw    satp, t0
        sfence.vma

        # to user mode, at the image's first instruction, with 0 in each register
        li      t0, TEXT
        csrw    mepc, t0
        csrw    mstatus, zero               # the mode before this trap: user
        .irp    r, 1,2,3,4,5,6,7,8,9,10,11,12,13,14,15,16,17,18,19,20,21,22,23,24,25,26,27,28,29,30,31
        li      x\r, 0
        .endr
        mret

# ---- the calls of the image

# It keeps each register but a0 (x10), the answer. Here the processor does not translate addresses, so an address that the
# image names is RAM bytes further on.
        .balign 4
trap:
        csrrw   sp, mscratch, sp            # sp: where registers are saved
        sw      t0, 0(sp)
        sw      t1, 4(sp)
        sw      t2, 8(sp)
        sw      t3, 12(sp)
        csrr    t0, mcause
        li      t1, CAUSE_USER_CALL
        bne     t0, t1, other_trap
        csrr    t0, mepc
        addi    t0, t0, 4                   # the image goes on behind its ECALL
        csrw    mepc, t0
        li      t3, SERIAL
        li      t0, CALL_WRITE
        beq     a7, t0, write
        li      t0, CALL_READ
        beq     a7, t0, read
        li      t0, CALL_EXIT
        bne     a7, t0, other_trap

# exit: a0 is 0, 101 (heap full) or 102 (stack full)
        andi    t0, a0, 255
stop:
        li      t2, POWER
        li      t1, POWER_OFF
        beqz    t0, 1f
        slli    t1, t0, 16
        li      t0, POWER_FAIL
        or      t1, t1, t0
1:      sw      t1, 0(t2)
2:      j       2b

other_trap:
        li      t0, NO_IMAGE_TRAP
        j       stop

# write: a2 bytes from the address a1 on. All of them are sent: the image does not look at the answer, so a device that can
# fail has to be dealt with here.
write:
        li      t0, RAM
        add     t0, t0, a1
        add     t1, t0, a2                  # behind the last byte
1:      beq     t0, t1, 3f
2:      lbu     t2, SERIAL_STATE(t3)
        andi    t2, t2, MAY_SEND
        beqz    t2, 2b
        lbu     t2, 0(t0)
        sb      t2, 0(t3)
        addi    t0, t0, 1
        j       1b
3:      mv      a0, a2
        j       back

# read: one byte to the address a1, and 1 in a0; or 0 at the end of the input, and at each later read
read:
        li      a0, 0
        lw      t2, ENDED(sp)
        bnez    t2, back
1:      lbu     t2, SERIAL_STATE(t3)
        andi    t2, t2, BYTE_CAME
        beqz    t2, 1b
        lbu     t2, 0(t3)
        li      t0, END_OF_INPUT
        beq     t2, t0, end
        li      t0, RAM
        add     t0, t0, a1
        sb      t2, 0(t0)
        li      a0, 1
        j       back
end:    sw      t0, ENDED(sp)

back:
        lw      t0, 0(sp)
        lw      t1, 4(sp)
        lw      t2, 8(sp)
        lw      t3, 12(sp)
        csrrw   sp, mscratch, sp
        mret

        .section .bss
        .balign 4096
table:  .space  4096
saved:  .space  20

# ---- the image: its raw bytes, which begin at offset 0x1000 of its file

        .section .image, "ax"
        .incbin "image.elf", 0x1000
