/* The key is a part of the loader. The slot has two lengths, the image and the signature; here it is in the same ELF
 * file as the loader, so that one file runs. On a board the slot is written by itself: objcopy -O binary -j .slot. */
    .section .rodata.key, "a"
    .global key, key_end
key:
    .incbin KEY
key_end:

    .section .slot, "a"
    .word image_end - image, signature_end - signature
image:
    .incbin IMAGE
image_end:
signature:
    .incbin SIGNATURE
signature_end:
