/* The class table, typed by hand from the register map (section 5) and Table 14 of source document 000. Five numbers for each address.
 * A reason stands beside each address that is not plain. "T14" is Table 14; a bit that the map does not list is free; "Must be set to
 * Default" and "Fixed" are mandated at the default; "Should be" is no order. */
#include "model.h"

/*                 read_only mandated named free bits */
#define ROW(r, m, n, f, b) { 0x##r, 0x##m, 0x##n, 0x##f, 0x##b }
#define READ     ROW(FF, 00, 00, 00, 00)    /* the map's type is RO, all eight bits */
#define NAMED    ROW(00, 00, FF, 00, 00)    /* all eight bits in document 01's list of named fields */
#define FREE     ROW(00, 00, 00, FF, 00)    /* R/W and neither named nor fixed, or not in the map at all */
#define FIXED(b) ROW(00, FF, 00, 00, b)     /* all eight bits fixed */
#define LOW5     ROW(00, 00, 1F, E0, 00)    /* the high byte of a coefficient: 13 bits, so [4:0]; [7:5] is not listed */

const struct model_class model_classes[256] = {
/* 00 */ READ,                          /* chip revision */
/* 01 */ ROW(00, 00, 0F, F0, 00),       /* N[19:16] in [3:0] */
/* 02 */ NAMED,
/* 03 */ NAMED,
/* 04 */ READ,                          /* SPDIF rate [7:4] and automatic CTS [3:0], both RO */
/* 05 */ READ,
/* 06 */ READ,
/* 07 */ ROW(00, 00, 0F, F0, 00),       /* manual CTS[19:16] in [3:0] */
/* 08 */ NAMED,
/* 09 */ NAMED,
/* 0A */ ROW(00, 00, FC, 03, 00),       /* CTS select [7], audio select [6:4], mode [3:2]; MCLK ratio [1:0] free */
/* 0B */ ROW(00, 1E, 00, E1, 0E),       /* [4:1] fixed at 0111 */
/* 0C */ ROW(00, 00, 3F, C0, 00),       /* I2S enables [5:2], format [1:0]; [7:6] free */
/* 0D */ FREE,
/* 0E */ FREE,
/* 0F */ FREE,
/* 10 */ FREE,
/* 11 */ FREE,
/* 12 */ FREE,                          /* [7] only "should be 0" */
/* 13 */ FREE,
/* 14 */ FREE,
/* 15 */ NAMED,                         /* rate [7:4], input format [3:0] */
/* 16 */ ROW(00, 40, BC, 03, 00),       /* output format [7]; [6] must be default, 0; input depth [5:4], style [3:2]; edge [1], [0] free */
/* 17 */ ROW(00, 98, 00, 67, 00),       /* [7] and [4:3] must be default, 0 */
/* 18 */ NAMED,                         /* CSC enable [7], mode [6:5], A1[12:8] */
/* 19 */ NAMED,
/* 1A */ ROW(00, 00, 3F, C0, 00),       /* coefficient hold [5], A2[12:8]; [7:6] not listed */
/* 1B */ NAMED,
/* 1C */ LOW5,
/* 1D */ NAMED,
/* 1E */ LOW5,
/* 1F */ NAMED,
/* 20 */ LOW5,
/* 21 */ NAMED,
/* 22 */ LOW5,
/* 23 */ NAMED,
/* 24 */ LOW5,
/* 25 */ NAMED,
/* 26 */ LOW5,
/* 27 */ NAMED,
/* 28 */ LOW5,
/* 29 */ NAMED,
/* 2A */ LOW5,
/* 2B */ NAMED,
/* 2C */ LOW5,
/* 2D */ NAMED,
/* 2E */ LOW5,
/* 2F */ NAMED,
/* 30 */ NAMED,                         /* 30 to 34: sync generation, four times ten bits, named by document 02, request 02 */
/* 31 */ NAMED,
/* 32 */ NAMED,
/* 33 */ NAMED,
/* 34 */ NAMED,
/* 35 */ FREE,
/* 36 */ FREE,
/* 37 */ FREE,
/* 38 */ FREE,
/* 39 */ FREE,
/* 3A */ FREE,
/* 3B */ ROW(00, 81, 7E, 00, 80),       /* [7] reserved at 1, [0] at 0; repetition mode [6:5], PLL [4:3], value [2:1] named */
/* 3C */ ROW(00, 00, 3F, C0, 00),       /* VIC [5:0] */
/* 3D */ READ,
/* 3E */ ROW(FC, 00, 00, 03, 00),       /* VIC detected, RO [7:2]; [1:0] not listed */
/* 3F */ ROW(F8, 00, 00, 07, 00),       /* RO [7:5], [4:3]; [2:0] not listed */
/* 40 */ ROW(00, 00, 80, 7F, 00),       /* GC enable [7]; the other packet enables free */
/* 41 */ ROW(00, 3D, 00, C2, 10),       /* [5] at 0, [4] at 1, [3:2] at 0, [0] at 0; power down [6] and sync adjustment [1] free */
/* 42 */ ROW(FC, 00, 00, 03, 00),       /* RO [7:2]; [1:0] not listed */
/* 43 */ FREE,
/* 44 */ ROW(00, 86, 78, 01, 00),       /* [7] at 0, [2:1] at 0; the enables [6:3] named; read mode [0] free */
/* 45 */ FREE,
/* 46 */ FREE,
/* 47 */ FREE,
/* 48 */ ROW(00, 80, 18, 67, 00),       /* [7] reserved, must be default, 0; justification [4:3]; bus order [6], DDR alignment [5] free */
/* 49 */ FREE,                          /* "all other settings are invalid" is no order */
/* 4A */ ROW(00, 00, E0, 1F, 00),       /* auto checksum [7], AVI hold [6], audio hold [5]; the GC hold [4] is not in the named list */
/* 4B */ ROW(00, 00, C0, 3F, 00),       /* AV mute: clear [7], set [6] */
/* 4C */ ROW(F0, 00, 0F, 00, 00),       /* [7:4] RO; color depth [3:0] named by document 02, request 06, though the map types it RO */
/* 4D */ FREE,                          /* GC bytes: "reserved in CEA 861D", no order to set */
/* 4E */ FREE,
/* 4F */ FREE,
/* 50 */ FREE,
/* 51 */ FREE,
/* 52 */ ROW(00, 00, 07, F8, 00),       /* AVI version: the map's field is [2:0] */
/* 53 */ ROW(00, 00, 1F, E0, 00),       /* AVI length: the map's field is [4:0] */
/* 54 */ NAMED,                         /* AVI checksum */
/* 55 */ NAMED,                         /* data byte 1; [7] is a reserved bit of a byte that is not */
/* 56 */ NAMED,
/* 57 */ NAMED,
/* 58 */ NAMED,                         /* data byte 4; the map lists [7] alone, document 01 names bytes 1 to 13 */
/* 59 */ NAMED,                         /* data byte 5; the map lists [7:4] alone */
/* 5A */ NAMED,
/* 5B */ NAMED,
/* 5C */ NAMED,
/* 5D */ NAMED,
/* 5E */ NAMED,
/* 5F */ NAMED,
/* 60 */ NAMED,
/* 61 */ NAMED,                         /* data byte 13, the last */
/* 62 */ FIXED(00),                     /* 62 to 6F: AVI bytes 14 to 27, "reserved per HDMI spec. Set to 0x00" */
/* 63 */ FIXED(00),
/* 64 */ FIXED(00),
/* 65 */ FIXED(00),
/* 66 */ FIXED(00),
/* 67 */ FIXED(00),
/* 68 */ FIXED(00),
/* 69 */ FIXED(00),
/* 6A */ FIXED(00),
/* 6B */ FIXED(00),
/* 6C */ FIXED(00),
/* 6D */ FIXED(00),
/* 6E */ FIXED(00),
/* 6F */ FIXED(00),
/* 70 */ ROW(00, 00, 07, F8, 00),       /* audio InfoFrame version: [2:0] */
/* 71 */ ROW(00, 00, 1F, E0, 00),       /* audio InfoFrame length: [4:0] */
/* 72 */ NAMED,
/* 73 */ NAMED,                         /* [3] is "fixed per HDMI spec"; named comes first */
/* 74 */ NAMED,                         /* [7:5] likewise */
/* 75 */ NAMED,
/* 76 */ NAMED,
/* 77 */ NAMED,                         /* [2] likewise */
/* 78 */ FIXED(00),                     /* 78 to 7C: audio bytes 6 to 10, "reserved per HDMI spec. Set to '0x00'": not named */
/* 79 */ FIXED(00),
/* 7A */ FIXED(00),
/* 7B */ FIXED(00),
/* 7C */ FIXED(00),
/* 7D */ FREE,                          /* 7D to 91 are not in the map */
/* 7E */ FREE,
/* 7F */ FREE,
/* 80 */ FREE,
/* 81 */ FREE,
/* 82 */ FREE,
/* 83 */ FREE,
/* 84 */ FREE,
/* 85 */ FREE,
/* 86 */ FREE,
/* 87 */ FREE,
/* 88 */ FREE,
/* 89 */ FREE,
/* 8A */ FREE,
/* 8B */ FREE,
/* 8C */ FREE,
/* 8D */ FREE,
/* 8E */ FREE,
/* 8F */ FREE,
/* 90 */ FREE,
/* 91 */ FREE,
/* 92 */ FREE,                          /* CEC interrupt enables */
/* 93 */ FREE,                          /* CEC interrupts; typed R/W */
/* 94 */ ROW(00, 09, 00, F6, 00),       /* [3] and [0] must be default, 0 */
/* 95 */ FREE,
/* 96 */ ROW(00, 09, 00, F6, 00),       /* [3] must be default, [0] "Fixed @ 0b" */
/* 97 */ FREE,
/* 98 */ FIXED(03),                     /* T14 */
/* 99 */ FIXED(02),
/* 9A */ ROW(00, FE, 00, 01, E0),       /* T14: [7:1] = 1110000 */
/* 9B */ ROW(00, 3F, 00, C0, 18),       /* [5:0] at 011000 */
/* 9C */ FIXED(30),                     /* T14 */
/* 9D */ ROW(00, F3, 00, 0C, 61),       /* T14: [1:0] = 01; [7:4] at 0110 by the map; clock divide [3:2] free */
/* 9E */ ROW(1F, 00, 00, E0, 00),       /* RO [4], [3:0]; [7:5] not listed */
/* 9F */ FIXED(00),
/* A0 */ READ,
/* A1 */ ROW(00, 80, 00, 7F, 00),       /* [7] must be default, 0; [1:0] not listed */
/* A2 */ FIXED(A4),                     /* T14 */
/* A3 */ FIXED(A4),                     /* T14 */
/* A4 */ ROW(00, FE, 00, 01, 08),       /* [7:1] at 0000100 */
/* A5 */ ROW(00, FE, 00, 01, 04),       /* [7:1] at 0000010 */
/* A6 */ FIXED(00),
/* A7 */ FIXED(00),
/* A8 */ FIXED(00),
/* A9 */ ROW(00, FE, 00, 01, 00),       /* [7:1] at 0 */
/* AA */ FIXED(00),
/* AB */ ROW(00, F8, 00, 07, 40),       /* [7:3] at 01000 */
/* AC */ READ,
/* AD */ READ,
/* AE */ ROW(E0, 00, 00, 1F, 00),       /* RO [7:5]; [4:0] not listed */
/* AF */ ROW(00, 6D, 02, 90, 04),       /* [6:5] at 0, [3:2] at 01, [0] at 0; HDMI/DVI [1] named; HDCP [7] and [4] free */
/* B0 */ READ,
/* B1 */ READ,
/* B2 */ READ,
/* B3 */ READ,
/* B4 */ READ,
/* B5 */ READ,
/* B6 */ READ,
/* B7 */ READ,
/* B8 */ ROW(F0, 00, 00, 0F, 00),       /* RO [7:4]; [3:0] not listed */
/* B9 */ FIXED(00),
/* BA */ ROW(00, 0C, 00, F3, 00),       /* [3] fixed at 0; [2] "must be set to default", 0; [0] not listed */
/* BB */ FIXED(00),
/* BC */ READ,
/* BD */ READ,
/* BE */ READ,
/* BF */ READ,
/* C0 */ READ,
/* C1 */ READ,
/* C2 */ READ,
/* C3 */ READ,
/* C4 */ FREE,
/* C5 */ FIXED(00),                     /* R/W, "Fixed", no text */
/* C6 */ READ,
/* C7 */ ROW(7F, 80, 00, 00, 00),       /* [7] R/W, fixed at 0; [6:0] RO */
/* C8 */ READ,
/* C9 */ FREE,                          /* [7:5] not listed */
/* CA */ READ,
/* CB */ READ,
/* CC */ ROW(07, 00, 00, F8, 00),       /* RO [2:0]; [7:3] not listed */
/* CD */ ROW(00, F0, 00, 0F, 00),       /* [7:4] at 0 */
/* CE */ FIXED(01),
/* CF */ FIXED(04),
/* D0 */ ROW(00, 01, 00, FE, 00),       /* [0] at 0; [6:4] only "should be"; [3:2] "must be" for other input IDs alone */
/* D1 */ FIXED(FF),
/* D2 */ FIXED(80),
/* D3 */ FIXED(80),
/* D4 */ FIXED(80),
/* D5 */ ROW(00, F0, 00, 0F, 00),       /* [7:4] at 0 */
/* D6 */ ROW(00, 2E, 00, D1, 00),       /* [5] and [3:1] at 0 */
/* D7 */ FREE,
/* D8 */ FREE,
/* D9 */ FREE,
/* DA */ FREE,
/* DB */ FREE,
/* DC */ ROW(00, 1F, 00, E0, 00),       /* the high five of the nine fixed bits [8:0]; offset [7:5] free */
/* DD */ ROW(00, F0, 00, 0F, 00),       /* the low four of them; [3:0] not listed */
/* DE */ ROW(00, F6, 00, 09, 10),       /* [7:4] at 0001, [2:1] at 00 (the Bits column counts); [3] free, [0] not listed */
/* DF */ ROW(00, 7E, 00, 81, 00),       /* [6:1] at 0 */
/* E0 */ FIXED(D0),                     /* T14 */
/* E1 */ FREE,
/* E2 */ ROW(00, 0E, 00, F1, 00),       /* [3:1] at 0; CEC power down [0] free, [7:4] not listed */
/* E3 */ ROW(00, FE, 00, 01, 00),       /* [7:1] at 0 */
/* E4 */ ROW(00, FC, 00, 03, 60),       /* [7:2] at 011000 */
/* E5 */ FREE,                          /* E5 to F4 are not in the map */
/* E6 */ FREE,
/* E7 */ FREE,
/* E8 */ FREE,
/* E9 */ FREE,
/* EA */ FREE,
/* EB */ FREE,
/* EC */ FREE,
/* ED */ FREE,
/* EE */ FREE,
/* EF */ FREE,
/* F0 */ FREE,
/* F1 */ FREE,
/* F2 */ FREE,
/* F3 */ FREE,
/* F4 */ FREE,
/* F5 */ READ,
/* F6 */ READ,
/* F7 */ ROW(F0, 00, 00, 0F, 00),       /* RO [7:4] by the Bits column; [3:0] not listed */
/* F8 */ FREE,                          /* not in the map */
/* F9 */ FIXED(00),                     /* T14: set to 0x00 */
/* FA */ ROW(00, 03, 00, FC, 00),       /* [1:0] must be default, 0 */
/* FB */ FREE,                          /* [0] not listed */
/* FC */ FREE,
/* FD */ FREE,                          /* [1:0] not listed */
/* FE */ FREE,                          /* [4:0] not listed */
/* FF */ FREE,                          /* not in the map */
};
