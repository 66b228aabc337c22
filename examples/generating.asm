; Generating: lets the turbine run while the least of the last eight heads is enough.
; limits 0000-00FF 03FE-03FF
; version 1

outputs = 0x13          ; bit 1 is the turbine
enough  = 0x14          ; least head to run at
least   = 0x15          ; the least head found
heads   = 0x20          ; the last eight heads

        .area   CODE
_generating::
        ldw     x, #0x0007      ; from the last head to the first
        ld      a, #0xFF        ; the least so far
next:   cp      a, (heads,x)
        jrc     above           ; the least so far is below this head
        ld      a, (heads,x)
above:  decw    x
        jrpl    next            ; X is FFFF after the first head
        ld      least, a
        cp      a, enough
        jrc     stop            ; too little head
        bset    outputs, #1     ; run
        ret
stop:   bres    outputs, #1
        ret
