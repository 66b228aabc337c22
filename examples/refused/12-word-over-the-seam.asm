; Refused 12 at 3: the word's first byte, 00FF, is the last of the grant and its second byte the first of the second grant.
; sdas writes these two by the short form, BE 10 and BF FF, which is outside the set: so they stand as bytes.
; limits 0000-00FF 03FE-03FF 0100-011F
; version 1

        .area   CODE
_main::
        .byte   0xCE, 0x00, 0x10        ; ldw x, 0x0010
        .byte   0xCF, 0x00, 0xFF        ; ldw 0x00FF, x
        ret
