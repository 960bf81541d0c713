# Each instruction at least twice, for riscv64-unknown-elf-as -march=rv64ima_zicsr -mno-relax.
        .option norvc
        lui     x1, 0x12345
        lui     x31, 0xfffff
        lui     x5, 0x80000
        auipc   x2, 0x00001
        auipc   x30, 0xabcde
        jal     x0, .-24
        jal     x1, .+2048
        jal     x31, .+0xffffe
        jal     x2, .-0x100000
        jalr    x0, 0(x1)
        jalr    x31, -2048(x16)
        jalr    x1, 2047(x30)
        beq     x1, x2, .+4
        beq     x31, x16, .-4096
        bne     x3, x4, .+4094
        bne     x16, x31, .-2
        blt     x5, x6, .+2048
        blt     x30, x17, .-2048
        bge     x7, x8, .+30
        bge     x29, x18, .-32
        bltu    x9, x10, .+2046
        bltu    x28, x19, .-2050
        bgeu    x11, x12, .+16
        bgeu    x27, x20, .-1024
        lb      x1, 0(x2)
        lb      x31, -1(x16)
        lh      x3, 2047(x4)
        lh      x30, -2048(x17)
        lw      x5, 4(x6)
        lw      x29, -4(x18)
        ld      x5, 0(x10)
        ld      x28, -8(x19)
        lbu     x7, 1(x8)
        lbu     x27, -1024(x20)
        lhu     x9, 1024(x10)
        lhu     x26, -2(x21)
        lwu     x11, 16(x12)
        lwu     x25, -16(x22)
        sb      x1, 31(x2)
        sb      x31, -1(x16)
        sh      x3, 2047(x4)
        sh      x30, -2048(x17)
        sw      x5, 32(x6)
        sw      x29, -32(x18)
        sd      x5, 0(x11)
        sd      x28, -33(x19)
        addi    x1, x0, 5
        addi    x31, x16, -1
        slti    x2, x3, 2047
        slti    x30, x17, -2048
        sltiu   x4, x5, 1
        sltiu   x29, x18, -2
        xori    x6, x7, 255
        xori    x28, x19, -1
        ori     x8, x9, 1024
        ori     x27, x20, -1024
        andi    x10, x11, 15
        andi    x26, x21, -16
        slli    x1, x2, 0
        slli    x31, x16, 63
        srli    x3, x4, 32
        srli    x30, x17, 31
        srai    x5, x6, 1
        srai    x29, x18, 62
        addiw   x1, x2, 2047
        addiw   x31, x16, -2048
        slliw   x3, x4, 0
        slliw   x30, x17, 31
        srliw   x5, x6, 1
        srliw   x29, x18, 30
        sraiw   x7, x8, 16
        sraiw   x28, x19, 31
        add     x1, x2, x3
        add     x31, x16, x8
        sub     x4, x5, x6
        sub     x30, x17, x9
        sll     x7, x8, x9
        sll     x29, x18, x10
        slt     x10, x11, x12
        slt     x28, x19, x11
        sltu    x13, x14, x15
        sltu    x27, x20, x12
        xor     x16, x17, x18
        xor     x26, x21, x13
        srl     x19, x20, x21
        srl     x25, x22, x14
        sra     x22, x23, x24
        sra     x24, x23, x15
        or      x25, x26, x27
        or      x23, x24, x16
        and     x28, x29, x30
        and     x22, x25, x17
        mul     x1, x2, x3
        mul     x31, x16, x8
        mulh    x4, x5, x6
        mulh    x30, x17, x9
        mulhsu  x7, x8, x9
        mulhsu  x29, x18, x10
        mulhu   x10, x11, x12
        mulhu   x28, x19, x11
        div     x13, x14, x15
        div     x27, x20, x12
        divu    x16, x17, x18
        divu    x26, x21, x13
        rem     x19, x20, x21
        rem     x25, x22, x14
        remu    x22, x23, x24
        remu    x24, x23, x15
        addw    x1, x2, x3
        addw    x31, x16, x8
        subw    x4, x5, x6
        subw    x30, x17, x9
        sllw    x7, x8, x9
        sllw    x29, x18, x10
        srlw    x10, x11, x12
        srlw    x28, x19, x11
        sraw    x13, x14, x15
        sraw    x27, x20, x12
        mulw    x16, x17, x18
        mulw    x26, x21, x13
        divw    x19, x20, x21
        divw    x25, x22, x14
        divuw   x22, x23, x24
        divuw   x24, x23, x15
        remw    x25, x26, x27
        remw    x23, x24, x16
        remuw   x28, x29, x30
        remuw   x22, x25, x17
        fence   rw, rw
        fence   i, o
        fence   r, w
        fence.tso
        .insn   i 0x0f, 0, x5, x6, -1
        ecall
        ecall
        ebreak
        ebreak
        mret
        mret
        wfi
        wfi
        csrrw   x1, 0x340, x2
        csrrw   x0, 0x300, x31
        csrrs   x3, 0xc00, x0
        csrrs   x30, 0x344, x16
        csrrc   x5, 0x304, x6
        csrrc   x29, 0xfff, x17
        csrrwi  x7, 0x341, 8
        csrrwi  x28, 0x305, 31
        csrrsi  x9, 0x300, 0
        csrrsi  x27, 0x342, 16
        csrrci  x11, 0x300, 12
        csrrci  x26, 0x800, 1
        lr.w    x1, (x2)
        lr.w.aqrl x31, (x16)
        lr.d    x3, (x4)
        lr.d.aq x30, (x17)
        sc.w    x5, x6, (x7)
        sc.w.rl x29, x18, (x8)
        sc.d    x8, x9, (x10)
        sc.d.aqrl x28, x19, (x9)
        amoswap.w x1, x2, (x3)
        amoswap.d.aq x31, x16, (x8)
        amoadd.w.rl x4, x5, (x6)
        amoadd.d x6, x12, (x10)
        amoxor.w x7, x8, (x9)
        amoxor.d.aqrl x29, x18, (x10)
        amoand.w.aq x10, x11, (x12)
        amoand.d x28, x19, (x11)
        amoor.w x13, x14, (x15)
        amoor.d.rl x27, x20, (x12)
        amomin.w.aqrl x16, x17, (x18)
        amomin.d x26, x21, (x13)
        amomax.w x19, x20, (x21)
        amomax.d.aq x25, x22, (x14)
        amominu.w.rl x22, x23, (x24)
        amominu.d x24, x23, (x15)
        amomaxu.w x25, x26, (x27)
        amomaxu.d.aqrl x23, x24, (x16)
