# What tests/machine_code.py must say of each function: nothing of the right ones, and of each other one its fault.
        .text
right:                          # right
        endbr64
        lea     -0x22(%rdi), %ecx
        mov     $0x32, %eax
        cmp     $0xdc, %cl
        ja      1f
        movzbl  %dil, %eax
        imul    $0xa3a3, %eax, %eax
        sar     $8, %eax
        test    %eax, %eax
        cmovs   %ecx, %eax
        nopw    0x10(%rax,%rax,1)
1:      ret
        .p2align 4
right_with_jumps:               # right
        cmp     $0x90, %dil
        setb    %al
        jb      1f
        neg     %eax
        jmp     2f
1:      shl     $0x20, %rax
2:      ret
        .p2align 4

divides:                        # a divide instruction
        div     %ecx
        ret
divides_with_a_sign:            # a divide instruction
        idivl   %ecx
        ret
divides_floats:                 # a divide instruction
        divss   %xmm1, %xmm0
        ret
divides_on_the_old_stack:       # a divide instruction
        fdivrp  %st, %st(1)
        ret
calls:                          # a call
        call    elsewhere
        ret
calls_a_pointer:                # a call
        call    *%rax
        ret
calls_itself:                   # a call
        call    calls_itself
        ret
loops:                          # a jump backward
1:      sub     $1, %eax
        jne     1b
        ret
stays:                          # a jump backward
1:      jmp     1b
        ret
jumps_to_its_start:             # a jump backward
        jmp     jumps_to_its_start
        ret
jumps_elsewhere:                # a jump out of the function
        je      elsewhere
        ret
jumps_to_a_neighbour:           # a jump out of the function
        je      falls_through
        ret
jumps_into_an_instruction:      # a jump out of the function
        jmp     1f + 1
1:      mov     $0xc390, %eax
        ret
jumps_to_a_register:            # an indirect jump
        jmp     *%rax
        ret
jumps_by_a_table:               # an indirect jump
        jmp     *table(,%rdi,8)
        ret
reads_a_table:                  # an address of data
        movzbl  table(%rip), %eax
        ret
names_a_table:                  # an address of data
        lea     table(%rip), %rax
        ret
reads_memory:                   # a memory operand
        mov     (%rdi), %eax
        ret
reads_a_fixed_place:            # a memory operand
        mov     0x1000, %eax
        ret
adds_memory:                    # a memory operand
        add     -8(%rsp,%rdi,4), %eax
        ret
repeats:                        # an unknown instruction
        rep movsb
        ret
scans_bits:                     # an unknown instruction
        bsf     %edi, %eax
        ret
counts_down:                    # an unknown instruction
        loop    1f
1:      ret
pushes:                         # an unknown instruction
        push    %rbx
        ret
falls_through:                  # no ret at its end
        mov     %edi, %eax
empty:                          # no instruction
        .p2align 4
        .section .rodata
table:  .quad   0
