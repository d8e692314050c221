// The proved module for WebAssembly as Java; made by bindings/java/core.py.
package chinesenumber;

final class Core9 {
static int f290_1(State m, long l0, long l1, long l4, long l5, long l6, long l7, long l14, long l15, long l16, long l17, int l22, int l23, int l24, int l25, int l26, int l27, int l28) {
 final byte[] b = m.bytes;
 int exit = 0;
 PART: {
  L3: {
   L4: {
    L5: {
     switch ((int) (b[((int) l6) - 58912] & 0xffL)) {
     case 1: break L4;
     case 2: break L3;
     default: break L5;
     }
    }
    L6: {
     L7: {
      L8: {
       L9: {
        L10: {
         L11: {
          switch (l22) {
          case 1: break L10;
          case 2: break L9;
          case 3: break L8;
          case 4: break L7;
          case 5: break L6;
          default: break L11;
          }
         }
         Words.put16(b, ((int) l7) - 58623, (short) l23);
         b[((int) l7) - 58624] = (byte) l24;
         f291(m, l0, l7 + 288L, l17, l16);
         f292(m, l0, l24, 26376);
         f291(m, l0, l7 + 288L, l15, l14);
         Words.put32(b, ((int) l7) - 58624, 10852326);
         Core2.f53(m, l0, l7 + 288L, 3L);
         exit = 1; break PART;
        }
        Words.put16(b, ((int) l7) - 58623, (short) l23);
        b[((int) l7) - 58624] = (byte) l24;
        f291(m, l0, l7 + 288L, l17, l16);
        f292(m, l0, l24, 27604);
        f291(m, l0, l7 + 288L, l15, l14);
        Core2.f53(m, l0, 99445L, 12L);
        exit = 1; break PART;
       }
       Words.put16(b, ((int) l7) - 58623, (short) l23);
       b[((int) l7) - 58624] = (byte) l24;
       f291(m, l0, l7 + 288L, l15, l14);
       Core2.f53(m, l0, 99439L, 6L);
       f291(m, l0, l7 + 288L, l17, l16);
       exit = 1; break PART;
      }
      L12: {
       if (l16 == 0L) { break L12; }
       L13: while (true) {
        l26 = (l25 = (int) b[((int) l17) - 58912]) & 255;
        l6 = 1L;
        L14: {
         if (l25 > -1) { break L14; }
         l22 = (b[((int) l17) - 58911] & 0xff) & 63;
         L15: {
          if (l25 + Integer.MIN_VALUE > 2147483615) { break L15; }
          l26 = ((l26 << 6) & 1984) | l22;
          l6 = 2L;
          break L14;
         }
         l23 = (b[((int) l17) - 58910] & 0xff) & 63;
         L16: {
          if (l25 + Integer.MIN_VALUE > 2147483631) { break L16; }
          l26 = ((l22 << 6) | ((l26 << 12) & 61440)) | l23;
          l6 = 3L;
          break L14;
         }
         l26 = ((l23 << 6) | ((l22 << 12) | ((l26 << 18) & 1835008))) | ((b[((int) l17) - 58909] & 0xff) & 63);
         l6 = 4L;
        }
        f293(m, l0, l24, l26);
        l17 = l17 + l6;
        if ((l16 = l16 - l6) != 0L) { continue L13; }
        break L13;
       }
      }
      Words.put32(b, ((int) l7) - 58624, 11569381);
      Core2.f53(m, l0, l7 + 288L, 3L);
      if (l14 == 0L) { exit = 1; break PART; }
      L17: while (true) {
       l26 = (l25 = (int) b[((int) l15) - 58912]) & 255;
       l6 = 1L;
       L18: {
        if (l25 > -1) { break L18; }
        l22 = (b[((int) l15) - 58911] & 0xff) & 63;
        L19: {
         if (l25 + Integer.MIN_VALUE > 2147483615) { break L19; }
         l26 = ((l26 << 6) & 1984) | l22;
         l6 = 2L;
         break L18;
        }
        l23 = (b[((int) l15) - 58910] & 0xff) & 63;
        L20: {
         if (l25 + Integer.MIN_VALUE > 2147483631) { break L20; }
         l26 = ((l22 << 6) | ((l26 << 12) & 61440)) | l23;
         l6 = 3L;
         break L18;
        }
        l26 = ((l23 << 6) | ((l22 << 12) | ((l26 << 18) & 1835008))) | ((b[((int) l15) - 58909] & 0xff) & 63);
        l6 = 4L;
       }
       f293(m, l0, l24, l26);
       l15 = l15 + l6;
       if (!((l14 = l14 - l6) == 0L)) { continue L17; }
       exit = 1; break PART;
      }
     }
     Words.put16(b, ((int) l7) - 58623, (short) l23);
     b[((int) l7) - 58624] = (byte) l24;
     f291(m, l0, l7 + 288L, l17, l16);
     f292(m, l0, l24, 27604);
     f291(m, l0, l7 + 288L, l15, l14);
     exit = 1; break PART;
    }
    Words.put16(b, ((int) l7) - 58623, (short) l23);
    b[((int) l7) - 58624] = (byte) l24;
    f291(m, l0, l7 + 288L, l17, l16);
    f292(m, l0, l24, 26464);
    f291(m, l0, l7 + 288L, l15, l14);
    exit = 1; break PART;
   }
   Words.put16(b, ((int) l7) - 58663, (short) l23);
   b[((int) l7) - 58664] = (byte) l24;
   l15 = l5 - l16;
   L21: {
    if (l22 != 1) { break L21; }
    l6 = l4;
    l1 = l15;
    L22: while (true) {
     if (l1 == 0L) { break L21; }
     l26 = (l25 = (int) b[((int) l6) - 58912]) & 255;
     l17 = 1L;
     L23: {
      if (l25 > -1) { break L23; }
      l27 = (b[((int) l6) - 58911] & 0xff) & 63;
      L24: {
       if (l25 + Integer.MIN_VALUE > 2147483615) { break L24; }
       l26 = ((l26 << 6) & 1984) | l27;
       l17 = 2L;
       break L23;
      }
      l28 = (b[((int) l6) - 58910] & 0xff) & 63;
      L25: {
       if (l25 + Integer.MIN_VALUE > 2147483631) { break L25; }
       l26 = ((l27 << 6) | ((l26 << 12) & 61440)) | l28;
       l17 = 3L;
       break L23;
      }
      l26 = ((l28 << 6) | ((l27 << 12) | ((l26 << 18) & 1835008))) | ((b[((int) l6) - 58909] & 0xff) & 63);
      l17 = 4L;
     }
     l25 = 1;
     L26: {
      if (l26 == 46) { break L26; }
      if (l26 == 28857) { break L26; }
      if (l26 == 40670) { break L26; }
      l25 = 0;
     }
     l1 = l1 - l17;
     l6 = l6 + l17;
     if (l25 == 0) { continue L22; }
     break L22;
    }
    L27: while (true) {
     if (l1 == 0L) { break L21; }
     l26 = (l25 = (int) b[((int) l6) - 58912]) & 255;
     l17 = 1L;
     L28: {
      if (l25 > -1) { break L28; }
      l27 = (b[((int) l6) - 58911] & 0xff) & 63;
      L29: {
       if (l25 + Integer.MIN_VALUE < 2147483616) { break L29; }
       l28 = (b[((int) l6) - 58910] & 0xff) & 63;
       L30: {
        if (l25 + Integer.MIN_VALUE < 2147483632) { break L30; }
        l26 = ((l28 << 6) | ((l27 << 12) | ((l26 << 18) & 1835008))) | ((b[((int) l6) - 58909] & 0xff) & 63);
        l17 = 4L;
        break L28;
       }
       l26 = ((l27 << 6) | ((l26 << 12) & 61440)) | l28;
       l17 = 3L;
       break L28;
      }
      l26 = ((l26 << 6) & 1984) | l27;
      l17 = 2L;
     }
     l25 = 1;
     L31: {
      if (l26 == 46) { break L31; }
      if (l26 == 28857) { break L31; }
      if (l26 == 40670) { break L31; }
      l25 = 0;
     }
     l1 = l1 - l17;
     l6 = l6 + l17;
     if (l25 == 0) { continue L27; }
     break L27;
    }
    L32: {
     L33: while (true) {
      if (l1 == 0L) { break L32; }
      l26 = (l25 = (int) b[((int) l6) - 58912]) & 255;
      l17 = 1L;
      L34: {
       if (l25 > -1) { break L34; }
       l27 = (b[((int) l6) - 58911] & 0xff) & 63;
       L35: {
        if (l25 + Integer.MIN_VALUE < 2147483616) { break L35; }
        l28 = (b[((int) l6) - 58910] & 0xff) & 63;
        L36: {
         if (l25 + Integer.MIN_VALUE < 2147483632) { break L36; }
         l26 = ((l28 << 6) | ((l27 << 12) | ((l26 << 18) & 1835008))) | ((b[((int) l6) - 58909] & 0xff) & 63);
         l17 = 4L;
         break L34;
        }
        l26 = ((l27 << 6) | ((l26 << 12) & 61440)) | l28;
        l17 = 3L;
        break L34;
       }
       l26 = ((l26 << 6) & 1984) | l27;
       l17 = 2L;
      }
      if (l26 == 46) { break L21; }
      if (l26 == 28857) { break L21; }
      if (l26 == 40670) { break L21; }
      l1 = l1 - l17;
      l6 = l6 + l17;
      continue L33;
     }
    }
    Words.put16(b, ((int) l7) - 58623, (short) l23);
    b[((int) l7) - 58624] = (byte) l24;
    l1 = l4;
    l16 = l15;
    L37: {
     L38: while (true) {
      l6 = l1;
      if ((l17 = l16) == 0L) { break L37; }
      l26 = (l25 = (int) b[((int) l6) - 58912]) & 255;
      l1 = 1L;
      L39: {
       if (l25 > -1) { break L39; }
       l22 = (b[((int) l6) - 58911] & 0xff) & 63;
       L40: {
        if (l25 + Integer.MIN_VALUE > 2147483615) { break L40; }
        l26 = ((l26 << 6) & 1984) | l22;
        l1 = 2L;
        break L39;
       }
       l23 = (b[((int) l6) - 58910] & 0xff) & 63;
       L41: {
        if (l25 + Integer.MIN_VALUE > 2147483631) { break L41; }
        l26 = ((l22 << 6) | ((l26 << 12) & 61440)) | l23;
        l1 = 3L;
        break L39;
       }
       l26 = ((l23 << 6) | ((l22 << 12) | ((l26 << 18) & 1835008))) | ((b[((int) l6) - 58909] & 0xff) & 63);
       l1 = 4L;
      }
      l16 = l17 - l1;
      l1 = l6 + l1;
      if ((l26 + -48) + Integer.MIN_VALUE < -2147483638) { continue L38; }
      if ((l26 + -65296) + Integer.MIN_VALUE < -2147483638) { continue L38; }
      break L38;
     }
    }
    f291(m, l0, l7 + 288L, l4, l15 - l17);
    f294(m, l0, l7 + 288L, 1, l6, l17);
    exit = 1; break PART;
   }
   f294(m, l0, l7 + 248L, l22, l4, l15);
   exit = 1; break PART;
  }
 }
 m.kept[0] = l1;
 m.kept[1] = l6;
 m.kept[2] = l14;
 m.kept[3] = l15;
 m.kept[4] = l16;
 m.kept[5] = l17;
 m.kept[6] = l22;
 m.kept[7] = l23;
 m.kept[8] = l25;
 m.kept[9] = l26;
 m.kept[10] = l27;
 m.kept[11] = l28;
 return exit;
}

static int f290_2(State m, long l0, long l1, long l2, long l3, long l4, long l5, long l6, long l7, long l14, long l15, long l16, long l17, long l18, long l19, int l22, int l23, int l24, int l25, int l26, int l27, int l28, int l29, int l30, int l31, int l32, int l33, int l34, int l35) {
 final byte[] b = m.bytes;
 int exit = 0;
 PART: {
  L63: while (true) {
   Words.put64(b, ((int) l7) - 58704, l17 = l14);
   Words.put64(b, ((int) l7) - 58712, l15 = l19);
   b[((int) l7) - 58713] = (byte) l27;
   b[((int) l7) - 58714] = (byte) l26;
   Words.put16(b, ((int) l7) - 58716, (short) l25);
   Words.put32(b, ((int) l7) - 58720, l22);
   Core5.f156(m, l7 + 216L, b[((int) (l1 = l4 + (l6 << 1L))) - 58912] & 0xff, b[((int) (l16 = l1 + 1L)) - 58912] & 0xff, l7 + 192L);
   if ((b[((int) l7) - 58696] & 0xff) != 1) { exit = 1; break PART; }
   l28 = l26 & 1;
   l14 = Words.get64(b, ((int) l7) - 58672);
   l19 = Words.get64(b, ((int) l7) - 58680);
   l27 = b[((int) l7) - 58681] & 0xff;
   l26 = b[((int) l7) - 58682] & 0xff;
   l25 = Words.get16(b, ((int) l7) - 58684) & 0xffff;
   l22 = Words.get32(b, ((int) l7) - 58688);
   Core4.f132(m, l7 + 16L, l28, l15, l17);
   l28 = b[((int) l16) - 58912] & 0xff;
   l1 = b[((int) l1) - 58912] & 0xffL;
   l17 = Words.get64(b, ((int) l7) - 58888);
   l15 = Words.get64(b, ((int) l7) - 58896);
   Words.put64(b, ((int) l7) - 58640, 0L);
   Words.put64(b, ((int) l7) - 58648, 0L);
   Words.put64(b, ((int) l7) - 58656, 0L);
   Words.put64(b, ((int) l7) - 58664, 0L);
   L64: {
    L65: {
     L66: {
      switch ((int) l1) {
      case 1: break L65;
      case 2: case 3: break L64;
      default: break L66;
      }
     }
     Core4.f131(m, l7 + 248L, l15, l17);
     l1 = Words.get64(b, ((int) l7) - 58664);
     L67: {
      if ((l17 = Words.get64(b, ((int) l7) - 58656)) == 0L) { break L67; }
      l33 = (l32 = (int) b[((int) l1) - 58912]) & 255;
      L68: {
       if (l32 > -1) { break L68; }
       l34 = (b[((int) l1) - 58911] & 0xff) & 63;
       L69: {
        if (l32 + Integer.MIN_VALUE > 2147483615) { break L69; }
        l33 = ((l33 << 6) & 1984) | l34;
        break L68;
       }
       l35 = (b[((int) l1) - 58910] & 0xff) & 63;
       L70: {
        if (l32 + Integer.MIN_VALUE > 2147483631) { break L70; }
        l33 = ((l34 << 6) | ((l33 << 12) & 61440)) | l35;
        break L68;
       }
       l33 = ((l35 << 6) | ((l34 << 12) | ((l33 << 18) & 1835008))) | ((b[((int) l1) - 58909] & 0xff) & 63);
      }
      L71: {
       if ((l33 + -48) + Integer.MIN_VALUE < -2147483638) { break L71; }
       if ((l33 + -65296) + Integer.MIN_VALUE > -2147483639) { break L67; }
      }
      L72: {
       L73: {
        L74: {
         L75: {
          L76: {
           switch (l28) {
           case 3: case 4: case 6: case 9: case 11: case 12: break L72;
           case 5: break L73;
           case 7: break L74;
           case 8: case 10: break L75;
           default: break L76;
           }
          }
          L77: {
           L78: {
            if (l32 <= -1) { break L78; }
            l15 = 1L;
            break L77;
           }
           L79: {
            if (l32 + Integer.MIN_VALUE >= 2147483616) { break L79; }
            l15 = 2L;
            break L77;
           }
           l15 = (l32 + Integer.MIN_VALUE < 2147483632) ? 3L : 4L;
          }
          L80: {
           L81: {
            L82: {
             if (l17 == l15) { break L82; }
             L83: {
              L84: {
               if ((l28 = (int) b[((int) (l18 = l1 + l15)) - 58912]) <= -1) { break L84; }
               l16 = 1L;
               break L83;
              }
              L85: {
               if (l28 + Integer.MIN_VALUE >= 2147483616) { break L85; }
               l16 = 2L;
               break L83;
              }
              l16 = (l28 + Integer.MIN_VALUE < 2147483632) ? 3L : 4L;
             }
             if (l17 == (l15 = l16 + l15)) { break L82; }
             L86: {
              L87: {
               if ((l28 = (int) b[((int) (l18 = l18 + l16)) - 58912]) <= -1) { break L87; }
               l16 = 1L;
               break L86;
              }
              L88: {
               if (l28 + Integer.MIN_VALUE >= 2147483616) { break L88; }
               l16 = 2L;
               break L86;
              }
              l16 = (l28 + Integer.MIN_VALUE < 2147483632) ? 3L : 4L;
             }
             if (l17 == (l15 = l16 + l15)) { break L82; }
             L89: {
              L90: {
               if ((l28 = (int) b[((int) (l18 + l16)) - 58912]) <= -1) { break L90; }
               l16 = 1L;
               break L89;
              }
              L91: {
               if (l28 + Integer.MIN_VALUE >= 2147483616) { break L91; }
               l16 = 2L;
               break L89;
              }
              l16 = (l28 + Integer.MIN_VALUE < 2147483632) ? 3L : 4L;
             }
             if (l17 == (l16 + l15)) { break L81; }
            }
            L92: {
             L93: {
              if (l32 <= -1) { break L93; }
              l15 = 1L;
              break L92;
             }
             L94: {
              if (l32 + Integer.MIN_VALUE >= 2147483616) { break L94; }
              l15 = 2L;
              break L92;
             }
             l15 = (l32 + Integer.MIN_VALUE < 2147483632) ? 3L : 4L;
            }
            if (l17 == l15) { break L80; }
            L95: {
             L96: {
              if ((l28 = (int) b[((int) (l1 + l15)) - 58912]) <= -1) { break L96; }
              l16 = 1L;
              break L95;
             }
             L97: {
              if (l28 + Integer.MIN_VALUE >= 2147483616) { break L97; }
              l16 = 2L;
              break L95;
             }
             l16 = (l28 + Integer.MIN_VALUE < 2147483632) ? 3L : 4L;
            }
            if ((l30 | ((l17 != (l16 + l15)) ? 1 : 0)) != 0) { break L80; }
           }
           L98: while (true) {
            l28 = (l33 = (int) b[((int) l1) - 58912]) & 255;
            l15 = 1L;
            L99: {
             if (l33 > -1) { break L99; }
             l32 = (b[((int) l1) - 58911] & 0xff) & 63;
             L100: {
              if (l33 + Integer.MIN_VALUE > 2147483615) { break L100; }
              l28 = ((l28 << 6) & 1984) | l32;
              l15 = 2L;
              break L99;
             }
             l34 = (b[((int) l1) - 58910] & 0xff) & 63;
             L101: {
              if (l33 + Integer.MIN_VALUE > 2147483631) { break L101; }
              l28 = ((l32 << 6) | ((l28 << 12) & 61440)) | l34;
              l15 = 3L;
              break L99;
             }
             l28 = ((l34 << 6) | ((l32 << 12) | ((l28 << 18) & 1835008))) | ((b[((int) l1) - 58909] & 0xff) & 63);
             l15 = 4L;
            }
            f293(m, l0, l24, l28);
            l1 = l1 + l15;
            if (!((l17 = l17 - l15) == 0L)) { continue L98; }
            break L64;
           }
          }
          m.fill((int) (l7 + 288L), 0, (int) 235L);
          Words.put32(b, ((int) l3) - 58912, 0);
          Words.put16(b, ((int) l3) - 58908, (short) 0);
          b[((int) l7) - 58383] = (byte) 1;
          b[((int) l7) - 58384] = (byte) l24;
          Words.put64(b, ((int) l7) - 58376, l2);
          Core2.f53(m, l0, (l7 + 288L) + (l1 = Core2.f49(m, l7 + 288L, l7 + 528L, l23, 0, (l25 & 0xffffffffL) & 65535L, 0L)), 235L - l1);
          break L64;
         }
         L102: while (true) {
          l28 = (l33 = (int) b[((int) l1) - 58912]) & 255;
          l15 = 1L;
          L103: {
           if (l33 > -1) { break L103; }
           l32 = (b[((int) l1) - 58911] & 0xff) & 63;
           L104: {
            if (l33 + Integer.MIN_VALUE > 2147483615) { break L104; }
            l28 = ((l28 << 6) & 1984) | l32;
            l15 = 2L;
            break L103;
           }
           l34 = (b[((int) l1) - 58910] & 0xff) & 63;
           L105: {
            if (l33 + Integer.MIN_VALUE > 2147483631) { break L105; }
            l28 = ((l32 << 6) | ((l28 << 12) & 61440)) | l34;
            l15 = 3L;
            break L103;
           }
           l28 = ((l34 << 6) | ((l32 << 12) | ((l28 << 18) & 1835008))) | ((b[((int) l1) - 58909] & 0xff) & 63);
           l15 = 4L;
          }
          f293(m, l0, l24, l28);
          l1 = l1 + l15;
          if (!((l17 = l17 - l15) == 0L)) { continue L102; }
          break L64;
         }
        }
        L106: {
         if ((l29 & 255) != 30) { break L106; }
         m.fill((int) (l7 + 288L), 0, (int) 235L);
         Words.put32(b, ((int) l3) - 58912, 0);
         Words.put16(b, ((int) l3) - 58908, (short) 0);
         b[((int) l7) - 58383] = (byte) 1;
         b[((int) l7) - 58384] = (byte) l24;
         Words.put64(b, ((int) l7) - 58376, l2);
         Core2.f53(m, l0, (l7 + 288L) + (l1 = Core2.f49(m, l7 + 288L, l7 + 528L, l23, 0, (l25 & 0xffffffffL) & 65535L, 0L)), 235L - l1);
         break L64;
        }
        L107: {
         if ((l25 & 65535) != 2) { break L107; }
         f295(m, l0, l24, 99472L, 3L);
         break L64;
        }
        m.fill((int) (l7 + 288L), 0, (int) 235L);
        Words.put32(b, ((int) l3) - 58912, 0);
        Words.put16(b, ((int) l3) - 58908, (short) 0);
        b[((int) l7) - 58383] = (byte) 1;
        b[((int) l7) - 58384] = (byte) l24;
        Words.put64(b, ((int) l7) - 58376, l2);
        Core2.f53(m, l0, (l7 + 288L) + (l1 = Core2.f49(m, l7 + 288L, l7 + 528L, l23, 0, (l25 & 0xffffffffL) & 65535L, 0L)), 235L - l1);
        break L64;
       }
       b[((int) l7) - 58622] = (byte) l31;
       b[((int) l7) - 58623] = (byte) l23;
       b[((int) l7) - 58624] = (byte) l24;
       f297(m, l0, l7 + 288L, l1, l17, l25);
       break L64;
      }
      Core4.f132(m, l7, 1, l19, l14);
      L108: {
       if (Words.get64(b, ((int) l7) - 58904) == 0L) { break L108; }
       if ((l28 = (int) b[((int) (l15 = Words.get64(b, ((int) l7) - 58912))) - 58912]) > -1) { break L108; }
       if (l28 + Integer.MIN_VALUE < 2147483616) { break L108; }
       l32 = l28 & 255;
       l34 = (b[((int) l15) - 58911] & 0xff) & 63;
       l35 = (b[((int) l15) - 58910] & 0xff) & 63;
       L109: {
        L110: {
         if (l28 + Integer.MIN_VALUE > 2147483631) { break L110; }
         l33 = ((l34 << 6) | ((l32 << 12) & 61440)) | l35;
         break L109;
        }
        l33 = ((l35 << 6) | ((l34 << 12) | ((l32 << 18) & 1835008))) | ((b[((int) l15) - 58909] & 0xff) & 63);
       }
       L111: {
        L112: {
         if (l33 == 40670) { break L112; }
         if (l33 != 28857) { break L111; }
        }
        L113: {
         if ((l25 & 65535) != 2) { break L113; }
         f295(m, l0, l24, 99472L, 3L);
         break L64;
        }
        m.fill((int) (l7 + 288L), 0, (int) 235L);
        Words.put32(b, ((int) l3) - 58912, 0);
        Words.put16(b, ((int) l3) - 58908, (short) 0);
        b[((int) l7) - 58383] = (byte) 1;
        b[((int) l7) - 58384] = (byte) l24;
        Words.put64(b, ((int) l7) - 58376, l2);
        Core2.f53(m, l0, (l7 + 288L) + (l1 = Core2.f49(m, l7 + 288L, l7 + 528L, l23, 0, (l25 & 0xffffffffL) & 65535L, 0L)), 235L - l1);
        break L64;
       }
       L114: {
        L115: {
         if (l28 + Integer.MIN_VALUE > 2147483631) { break L115; }
         l28 = ((l34 << 6) | ((l32 << 12) & 61440)) | l35;
         break L114;
        }
        l28 = ((l35 << 6) | ((l34 << 12) | ((l32 << 18) & 1835008))) | ((b[((int) l15) - 58909] & 0xff) & 63);
       }
       L116: {
        if (l28 == 31186) { break L116; }
        if (l28 != 20998) { break L108; }
       }
       b[((int) l7) - 58625] = (byte) l31;
       b[((int) l7) - 58626] = (byte) l23;
       b[((int) l7) - 58627] = (byte) l24;
       f297(m, l0, l7 + 285L, l1, l17, l25);
       break L64;
      }
      m.fill((int) (l7 + 288L), 0, (int) 235L);
      Words.put32(b, ((int) l3) - 58912, 0);
      Words.put16(b, ((int) l3) - 58908, (short) 0);
      b[((int) l7) - 58383] = (byte) 1;
      b[((int) l7) - 58384] = (byte) l24;
      Words.put64(b, ((int) l7) - 58376, l2);
      Core2.f53(m, l0, (l7 + 288L) + (l1 = Core2.f49(m, l7 + 288L, l7 + 528L, l23, 0, (l25 & 0xffffffffL) & 65535L, 0L)), 235L - l1);
      break L64;
     }
     Core2.f53(m, l0, l1, l17);
     break L64;
    }
    L117: {
     if (((1 << l28) & 8371711) != 0) { break L117; }
     L118: {
      if (l28 == 9) { break L118; }
      L119: {
       if (l17 == 0L) { break L119; }
       if ((l28 = (int) b[((int) l15) - 58912]) > -1) { break L119; }
       if (l28 + Integer.MIN_VALUE < 2147483616) { break L119; }
       l33 = l28 & 255;
       l32 = (b[((int) l15) - 58911] & 0xff) & 63;
       l34 = (b[((int) l15) - 58910] & 0xff) & 63;
       L120: {
        L121: {
         if (l28 + Integer.MIN_VALUE > 2147483631) { break L121; }
         l28 = ((l32 << 6) | ((l33 << 12) & 61440)) | l34;
         break L120;
        }
        l28 = ((l34 << 6) | ((l32 << 12) | ((l33 << 18) & 1835008))) | ((b[((int) l15) - 58909] & 0xff) & 63);
       }
       L122: {
        if (l28 == 33267) { break L122; }
        if (l28 != 21040) { break L119; }
       }
       Words.put64(b, ((int) l7) - 58608, 0L);
       Words.put64(b, ((int) l7) - 58616, 0L);
       Words.put64(b, ((int) l7) - 58624, 0L);
       Core4.f134(m, l7 + 288L, 14, l15, l17);
       if ((b[((int) l7) - 58624] & 0xff) != 1) { break L64; }
       Core2.f53(m, l0, l15, l17 - Words.get64(b, ((int) l7) - 58608));
       break L64;
      }
      f295(m, l0, l24, 88992L, 3L);
      break L64;
     }
     f295(m, l0, l24, 99484L, 3L);
     break L64;
    }
    Words.put64(b, ((int) l7) - 58608, 0L);
    Words.put64(b, ((int) l7) - 58616, 0L);
    Words.put64(b, ((int) l7) - 58624, 0L);
    Core4.f134(m, l7 + 288L, l28, l15, l17);
    if ((b[((int) l7) - 58624] & 0xff) != 1) { break L64; }
    Core2.f53(m, l0, l15, l17 - Words.get64(b, ((int) l7) - 58608));
   }
   if ((l6 = l6 + 1L) != l5) { continue L63; }
   exit = 1; break PART;
  }
 }
 m.kept[0] = l1;
 m.kept[1] = l6;
 m.kept[2] = l14;
 m.kept[3] = l15;
 m.kept[4] = l16;
 m.kept[5] = l17;
 m.kept[6] = l18;
 m.kept[7] = l19;
 m.kept[8] = l22;
 m.kept[9] = l25;
 m.kept[10] = l26;
 m.kept[11] = l27;
 m.kept[12] = l28;
 m.kept[13] = l32;
 m.kept[14] = l33;
 m.kept[15] = l34;
 m.kept[16] = l35;
 return exit;
}

static int f290_3(State m, long l0, long l1, long l4, long l5, long l6, long l7, long l14, long l15, long l16, long l17, long l19, int l22, int l24, int l25, int l26, int l27, int l28) {
 final byte[] b = m.bytes;
 int exit = 0;
 PART: {
  L152: {
   L153: {
    if (Core5.f157(m, 97496L, 1L, 86088L, 1L, l4, l1 = l5 - l16) == 0) { break L153; }
    f295(m, l0, l24, 99826L, 6L);
    break L152;
   }
   if (Core7.f226(m, l4, l1) == 0) { break L152; }
   L154: {
    L155: {
     if (f300(m, l17, l16) != 0) { break L155; }
     if (l16 == 0L) { break L154; }
     L156: {
      L157: {
       if ((l28 = (int) b[((int) l17) - 58912]) <= -1) { break L157; }
       l6 = 1L;
       break L156;
      }
      L158: {
       if (l28 + Integer.MIN_VALUE >= 2147483616) { break L158; }
       l6 = 2L;
       break L156;
      }
      l6 = (l28 + Integer.MIN_VALUE < 2147483632) ? 3L : 4L;
     }
     l15 = l17 + l6;
     L159: {
      L160: {
       if (!((l19 = l16 - l6) == 0L)) { break L160; }
       l14 = 0L;
       break L159;
      }
      L161: while (true) {
       l26 = (l25 = (int) b[((int) l15) - 58912]) & 255;
       l6 = 1L;
       L162: {
        if (l25 > -1) { break L162; }
        l22 = (b[((int) l15) - 58911] & 0xff) & 63;
        L163: {
         if (l25 + Integer.MIN_VALUE > 2147483615) { break L163; }
         l26 = ((l26 << 6) & 1984) | l22;
         l6 = 2L;
         break L162;
        }
        l27 = (b[((int) l15) - 58910] & 0xff) & 63;
        L164: {
         if (l25 + Integer.MIN_VALUE > 2147483631) { break L164; }
         l26 = ((l22 << 6) | ((l26 << 12) & 61440)) | l27;
         l6 = 3L;
         break L162;
        }
        l26 = ((l27 << 6) | ((l22 << 12) | ((l26 << 18) & 1835008))) | ((b[((int) l15) - 58909] & 0xff) & 63);
        l6 = 4L;
       }
       L165: {
        if (l26 == 45) { break L165; }
        if (l26 == 65293) { break L165; }
        if (l26 == 8722) { break L165; }
        l14 = l19;
        break L159;
       }
       l15 = l15 + l6;
       l14 = 0L;
       if ((l19 = l19 - l6) != 0L) { continue L161; }
       break L161;
      }
     }
     l25 = l28 & 255;
     L166: {
      if (l28 > -1) { break L166; }
      l26 = (b[((int) l17) - 58911] & 0xff) & 63;
      L167: {
       if (l28 + Integer.MIN_VALUE > 2147483615) { break L167; }
       l25 = ((l25 << 6) & 1984) | l26;
       break L166;
      }
      l22 = (b[((int) l17) - 58910] & 0xff) & 63;
      L168: {
       if (l28 + Integer.MIN_VALUE > 2147483631) { break L168; }
       l25 = ((l26 << 6) | ((l25 << 12) & 61440)) | l22;
       break L166;
      }
      l25 = ((l22 << 6) | ((l26 << 12) | ((l25 << 18) & 1835008))) | ((b[((int) l17) - 58909] & 0xff) & 63);
     }
     l6 = -32L;
     L169: {
      L170: while (true) {
       if ((l22 = Words.get32(b, ((int) (l6 + 83884L)) - 58912)) == l25) { break L169; }
       l26 = (l6 != 0L) ? 1 : 0;
       l6 = l6 + 4L;
       if (l26 != 0) { continue L170; }
       break L170;
      }
     }
     if (l22 != l25) { break L154; }
     Words.put64(b, ((int) l7) - 58600, 0L);
     Words.put64(b, ((int) l7) - 58608, 0L);
     Words.put64(b, ((int) l7) - 58616, 0L);
     Words.put64(b, ((int) l7) - 58624, 0L);
     Core6.f206(m, l7 + 288L, l15, l14);
     if (l14 == 0L) { break L154; }
     l26 = (l25 = (int) b[((int) l15) - 58912]) & 255;
     L171: {
      if (l25 > -1) { break L171; }
      l22 = (b[((int) l15) - 58911] & 0xff) & 63;
      L172: {
       if (l25 + Integer.MIN_VALUE > 2147483615) { break L172; }
       l26 = ((l26 << 6) & 1984) | l22;
       break L171;
      }
      l27 = (b[((int) l15) - 58910] & 0xff) & 63;
      L173: {
       if (l25 + Integer.MIN_VALUE > 2147483631) { break L173; }
       l26 = ((l22 << 6) | ((l26 << 12) & 61440)) | l27;
       break L171;
      }
      l26 = ((l27 << 6) | ((l22 << 12) | ((l26 << 18) & 1835008))) | ((b[((int) l15) - 58909] & 0xff) & 63);
     }
     l6 = Words.get64(b, ((int) l7) - 58600);
     l15 = Words.get64(b, ((int) l7) - 58608);
     L174: {
      if ((l26 + -48) + Integer.MIN_VALUE < -2147483638) { break L174; }
      if ((l26 + -65296) + Integer.MIN_VALUE >= -2147483638) { break L154; }
     }
     if (f300(m, l15, l6) == 0) { break L154; }
    }
    f295(m, l0, l24, 99826L, 6L);
    break L152;
   }
   f292(m, l0, l24, 36127);
  }
 }
 m.kept[0] = l1;
 m.kept[1] = l6;
 m.kept[2] = l14;
 m.kept[3] = l15;
 m.kept[4] = l19;
 m.kept[5] = l22;
 m.kept[6] = l25;
 m.kept[7] = l26;
 m.kept[8] = l27;
 m.kept[9] = l28;
 return exit;
}

static int f290_4(State m, long l0, long l1, long l2, long l3, long l4, long l6, long l7, long l15, long l16, long l17, long l19, int l22, int l23, int l24, int l25, int l26) {
 final byte[] b = m.bytes;
 int exit = 0;
 PART: {
  L176: {
   L177: {
    if (f298(m, l2, l3, l4, l1, l17, l16) == 0) { break L177; }
    f292(m, l0, l24, 20004);
    break L176;
   }
   Words.put16(b, ((int) l7) - 58623, (short) l23);
   b[((int) l7) - 58624] = (byte) l24;
   L178: {
    if (l1 == 0L) { break L178; }
    L179: {
     L180: {
      if ((l26 = (int) b[((int) l4) - 58912]) <= -1) { break L180; }
      l6 = 1L;
      break L179;
     }
     L181: {
      if (l26 + Integer.MIN_VALUE >= 2147483616) { break L181; }
      l6 = 2L;
      break L179;
     }
     l6 = (l26 + Integer.MIN_VALUE < 2147483632) ? 3L : 4L;
    }
    if (l1 == l6) { break L178; }
    L182: {
     L183: {
      if ((l25 = (int) b[((int) (l4 + l6)) - 58912]) <= -1) { break L183; }
      l15 = 1L;
      break L182;
     }
     L184: {
      if (l25 + Integer.MIN_VALUE >= 2147483616) { break L184; }
      l15 = 2L;
      break L182;
     }
     l15 = (l25 + Integer.MIN_VALUE < 2147483632) ? 3L : 4L;
    }
    if (l1 != (l15 + l6)) { break L178; }
    if (Core7.f212(m, l4, l1) != 0) { break L178; }
    L185: {
     L186: {
      if (l26 <= -1) { break L186; }
      l6 = 1L;
      break L185;
     }
     L187: {
      if (l26 + Integer.MIN_VALUE >= 2147483616) { break L187; }
      l6 = 2L;
      break L185;
     }
     l6 = (l26 + Integer.MIN_VALUE < 2147483632) ? 3L : 4L;
    }
    l26 = Core7.f212(m, l4 + l6, l1 - l6);
    if (l16 == 0L) { break L178; }
    if (l26 != 0) { break L178; }
    if ((l26 = (int) b[((int) l17) - 58912]) > -1) { break L178; }
    if (l26 + Integer.MIN_VALUE < 2147483616) { break L178; }
    l25 = l26 & 255;
    l22 = (b[((int) l17) - 58911] & 0xff) & 63;
    l23 = (b[((int) l17) - 58910] & 0xff) & 63;
    L188: {
     L189: {
      if (l26 + Integer.MIN_VALUE > 2147483631) { break L189; }
      l26 = ((l22 << 6) | ((l25 << 12) & 61440)) | l23;
      break L188;
     }
     l26 = ((l23 << 6) | ((l22 << 12) | ((l25 << 18) & 1835008))) | ((b[((int) l17) - 58909] & 0xff) & 63);
    }
    if (l26 != 25240) { break L178; }
    l19 = l1;
    l6 = l4;
    L190: while (true) {
     l26 = (l25 = (int) b[((int) l6) - 58912]) & 255;
     l15 = 1L;
     L191: {
      if (l25 > -1) { break L191; }
      l22 = (b[((int) l6) - 58911] & 0xff) & 63;
      L192: {
       if (l25 + Integer.MIN_VALUE > 2147483615) { break L192; }
       l26 = ((l26 << 6) & 1984) | l22;
       l15 = 2L;
       break L191;
      }
      l23 = (b[((int) l6) - 58910] & 0xff) & 63;
      L193: {
       if (l25 + Integer.MIN_VALUE > 2147483631) { break L193; }
       l26 = ((l22 << 6) | ((l26 << 12) & 61440)) | l23;
       l15 = 3L;
       break L191;
      }
      l26 = ((l23 << 6) | ((l22 << 12) | ((l26 << 18) & 1835008))) | ((b[((int) l6) - 58909] & 0xff) & 63);
      l15 = 4L;
     }
     f293(m, l0, l24, l26);
     l6 = l6 + l15;
     if (!((l19 = l19 - l15) == 0L)) { continue L190; }
     break L176;
    }
   }
   Core7.f222(m, l7 + 96L, l4, l1);
   f301(m, l0, l7 + 288L, l2, l3, Words.get64(b, ((int) l7) - 58816), Words.get64(b, ((int) l7) - 58808));
  }
 }
 m.kept[0] = l6;
 m.kept[1] = l15;
 m.kept[2] = l19;
 m.kept[3] = l22;
 m.kept[4] = l23;
 m.kept[5] = l25;
 m.kept[6] = l26;
 return exit;
}

static int f290_5(State m, long l0, long l1, long l6, long l7, long l15, long l17, long l19, int l22, int l23, int l25, int l26) {
 final byte[] b = m.bytes;
 int exit = 0;
 PART: {
  L210: while (true) {
   l25 = (l26 = (int) b[((int) l1) - 58912]) & 255;
   l17 = 1L;
   L211: {
    if (l26 > -1) { break L211; }
    l22 = (b[((int) l1) - 58911] & 0xff) & 63;
    L212: {
     if (l26 + Integer.MIN_VALUE > 2147483615) { break L212; }
     l25 = ((l25 << 6) & 1984) | l22;
     l17 = 2L;
     break L211;
    }
    l23 = (b[((int) l1) - 58910] & 0xff) & 63;
    L213: {
     if (l26 + Integer.MIN_VALUE > 2147483631) { break L213; }
     l25 = ((l22 << 6) | ((l25 << 12) & 61440)) | l23;
     l17 = 3L;
     break L211;
    }
    l25 = ((l23 << 6) | ((l22 << 12) | ((l25 << 18) & 1835008))) | ((b[((int) l1) - 58909] & 0xff) & 63);
    l17 = 4L;
   }
   L214: {
    L215: {
     L216: {
      L217: {
       L218: {
        if ((l25 + -48) + Integer.MIN_VALUE < -2147483638) { break L218; }
        if ((l25 + -65296) + Integer.MIN_VALUE > -2147483639) { break L217; }
       }
       l6 = -44L;
       L219: {
        L220: while (true) {
         if ((l22 = Words.get32(b, ((int) (l6 + 87508L)) - 58912)) == l25) { break L219; }
         l26 = (l6 != 0L) ? 1 : 0;
         l6 = l6 + 4L;
         if (l26 != 0) { continue L220; }
         break L220;
        }
       }
       L221: {
        L222: {
         if (l22 != l25) { break L222; }
         Core2.f63(m, l7 + 32L, l25);
         l26 = b[((int) l7) - 58879] & 0xff;
         l25 = b[((int) l7) - 58880] & 0xff;
         break L221;
        }
        Core1.f24(m, l7 + 40L, l25);
        l26 = b[((int) l7) - 58871] & 0xff;
        l25 = b[((int) l7) - 58872] & 0xff;
       }
       if (((l25 = Words.get32(b, ((int) (l15 + ((((((l25 & 255) == 1) ? l26 : 0) & 0xffffffffL) & 255L) << 2L))) - 58912)) + -55296) + Integer.MIN_VALUE < 2147430400) { exit = 1; break PART; }
       Words.put32(b, ((int) l7) - 58624, 0);
       break L216;
      }
      Words.put32(b, ((int) l7) - 58624, 0);
      L223: {
       if (l25 + Integer.MIN_VALUE > -2147483521) { break L223; }
       b[((int) l7) - 58624] = (byte) l25;
       l6 = 1L;
       break L214;
      }
      L224: {
       if (l25 + Integer.MIN_VALUE > -2147481601) { break L224; }
       b[((int) l7) - 58623] = (byte) ((l25 & 63) | 128);
       b[((int) l7) - 58624] = (byte) ((l25 >>> 6) | 192);
       l6 = 2L;
       break L214;
      }
      if (l25 + Integer.MIN_VALUE > -2147418113) { break L215; }
     }
     b[((int) l7) - 58622] = (byte) ((l25 & 63) | 128);
     b[((int) l7) - 58624] = (byte) ((l25 >>> 12) | 224);
     b[((int) l7) - 58623] = (byte) (((l25 >>> 6) & 63) | 128);
     l6 = 3L;
     break L214;
    }
    b[((int) l7) - 58621] = (byte) ((l25 & 63) | 128);
    b[((int) l7) - 58624] = (byte) ((l25 >>> 18) | 240);
    b[((int) l7) - 58622] = (byte) (((l25 >>> 6) & 63) | 128);
    b[((int) l7) - 58623] = (byte) (((l25 >>> 12) & 63) | 128);
    l6 = 4L;
   }
   l1 = l1 + l17;
   Core2.f53(m, l0, l7 + 288L, l6);
   if (!((l19 = l19 - l17) == 0L)) { continue L210; }
   break L210;
  }
 }
 m.kept[0] = l1;
 m.kept[1] = l6;
 m.kept[2] = l17;
 m.kept[3] = l19;
 m.kept[4] = l22;
 m.kept[5] = l23;
 m.kept[6] = l25;
 m.kept[7] = l26;
 return exit;
}

static void f290(State m, long l0, long l1, long l2, long l3, long l4, long l5, long l6) {
 final byte[] b = m.bytes;
 long l7 = 0;
 long l8 = 0;
 long l9 = 0;
 long l10 = 0;
 long l11 = 0;
 long l12 = 0;
 long l13 = 0;
 long l14 = 0;
 long l15 = 0;
 long l16 = 0;
 long l17 = 0;
 long l18 = 0;
 long l19 = 0;
 long l20 = 0;
 int l21 = 0;
 int l22 = 0;
 int l23 = 0;
 int l24 = 0;
 int l25 = 0;
 int l26 = 0;
 int l27 = 0;
 int l28 = 0;
 int l29 = 0;
 int l30 = 0;
 int l31 = 0;
 int l32 = 0;
 int l33 = 0;
 int l34 = 0;
 int l35 = 0;
 m.g0 = l7 = m.g0 - 544L;
 L1: {
  if ((l7 = l7) < 16L) { break L1; }
  l8 = Words.get64(b, ((int) l6) - 58736);
  l9 = Words.get64(b, ((int) l6) - 58744);
  l10 = Words.get64(b, ((int) l6) - 58752);
  l11 = Words.get64(b, ((int) l6) - 58760);
  l21 = b[((int) l6) - 58768] & 0xff;
  l12 = Words.get64(b, ((int) l6) - 58776);
  l13 = Words.get64(b, ((int) l6) - 58784);
  l14 = Words.get64(b, ((int) l6) - 58872);
  l15 = Words.get64(b, ((int) l6) - 58880);
  l16 = Words.get64(b, ((int) l6) - 58888);
  l17 = Words.get64(b, ((int) l6) - 58896);
  l22 = b[((int) l6) - 58904] & 0xff;
  l23 = Words.get16(b, ((int) l1) - 58911) & 0xffff;
  l24 = b[((int) l1) - 58912] & 0xff;
  L2: {
   final int x42 = f290_1(m, l0, l1, l4, l5, l6, l7, l14, l15, l16, l17, l22, l23, l24, l25, l26, l27, l28);
   l1 = m.kept[0];
   l6 = m.kept[1];
   l14 = m.kept[2];
   l15 = m.kept[3];
   l16 = m.kept[4];
   l17 = m.kept[5];
   l22 = (int) m.kept[6];
   l23 = (int) m.kept[7];
   l25 = (int) m.kept[8];
   l26 = (int) m.kept[9];
   l27 = (int) m.kept[10];
   l28 = (int) m.kept[11];
   switch (x42) {
   case 1: break L2;
   }
   l18 = Words.get64(b, ((int) l6) - 58800);
   l19 = Words.get64(b, ((int) l6) - 58816);
   l1 = Words.get64(b, ((int) l6) - 58824);
   l20 = Words.get64(b, ((int) l6) - 58848);
   L43: {
    L44: {
     L45: {
      L46: {
       L47: {
        L48: {
         L49: {
          L50: {
           L51: {
            L52: {
             switch (l22) {
             case 1: break L51;
             case 2: break L50;
             case 3: break L49;
             default: break L52;
             }
            }
            b[((int) l7) - 58771] = (byte) l24;
            Words.put64(b, ((int) l7) - 58800, 0L);
            Words.put64(b, ((int) l7) - 58792, 0L);
            Words.put64(b, ((int) l7) - 58784, 0L);
            Words.put16(b, ((int) l7) - 58770, (short) l23);
            Core5.f155(m, l7 + 112L, (int) l17, l4, l5);
            if ((b[((int) l7) - 58800] & 0xff) != 1) { break L2; }
            l20 = l17 >>> 48L;
            l18 = l17 >>> 32L;
            l19 = Words.get64(b, ((int) l7) - 58792);
            Core2.f53(m, l0, l4, l5 - (l14 = Words.get64(b, ((int) l7) - 58784)));
            Words.put64(b, ((int) l7) - 58752, 0L);
            Words.put64(b, ((int) l7) - 58744, 0L);
            Words.put64(b, ((int) l7) - 58736, 0L);
            Words.put64(b, ((int) l7) - 58728, 0L);
            Words.put32(b, ((int) l7) - 58760, 0);
            Words.put16(b, ((int) l7) - 58756, (short) 0);
            Words.put32(b, ((int) l7) - 58768, 0);
            Words.put16(b, ((int) l7) - 58764, (short) 0);
            L53: {
             L54: {
              L55: {
               L56: {
                switch ((int) (((l29 = (int) (l1 = l17 >>> 8L)) & 0xffffffffL) & 255L)) {
                case 5: case 6: break L56;
                case 20: break L54;
                case 21: break L55;
                default: break L53;
                }
               }
               Core4.f131(m, l7 + 160L, l19, l14);
               L57: {
                if ((l17 = Words.get64(b, ((int) l7) - 58744)) == 0L) { break L57; }
                l6 = Words.get64(b, ((int) l7) - 58752);
                L58: while (true) {
                 l26 = (l25 = (int) b[((int) l6) - 58912]) & 255;
                 l1 = 1L;
                 L59: {
                  if (l25 > -1) { break L59; }
                  l22 = (b[((int) l6) - 58911] & 0xff) & 63;
                  L60: {
                   if (l25 + Integer.MIN_VALUE > 2147483615) { break L60; }
                   l26 = ((l26 << 6) & 1984) | l22;
                   l1 = 2L;
                   break L59;
                  }
                  l27 = (b[((int) l6) - 58910] & 0xff) & 63;
                  L61: {
                   if (l25 + Integer.MIN_VALUE > 2147483631) { break L61; }
                   l26 = ((l22 << 6) | ((l26 << 12) & 61440)) | l27;
                   l1 = 3L;
                   break L59;
                  }
                  l26 = ((l27 << 6) | ((l22 << 12) | ((l26 << 18) & 1835008))) | ((b[((int) l6) - 58909] & 0xff) & 63);
                  l1 = 4L;
                 }
                 f293(m, l0, l24, l26);
                 l6 = l6 + l1;
                 if ((l17 = l17 - l1) != 0L) { continue L58; }
                 break L58;
                }
               }
               f295(m, l0, l24, 99457L, 3L);
               m.fill((int) (l7 + 288L), 0, (int) 235L);
               Words.put32(b, ((int) l7) - 58662, 0);
               b[((int) l7) - 58663] = (byte) 1;
               b[((int) l7) - 58664] = (byte) l24;
               Words.put16(b, ((int) l7) - 58658, (short) 0);
               Words.put64(b, ((int) l7) - 58656, l6 = ((l24 & 255) != 0) ? 69676L : 69244L);
               Core2.f53(m, l0, (l7 + 288L) + (l1 = Core2.f49(m, l7 + 288L, l7 + 248L, l23, 0, l18 & 65535L, 0L)), 235L - l1);
               f295(m, l0, l24, 99460L, 3L);
               m.fill((int) (l7 + 288L), 0, (int) 235L);
               Words.put32(b, ((int) l7) - 58662, 0);
               b[((int) l7) - 58663] = (byte) 1;
               b[((int) l7) - 58664] = (byte) l24;
               Words.put16(b, ((int) l7) - 58658, (short) 0);
               Words.put64(b, ((int) l7) - 58656, l6);
               Core2.f53(m, l0, (l7 + 288L) + (l6 = Core2.f49(m, l7 + 288L, l7 + 248L, l23, 0, l20, 0L)), 235L - l6);
               f295(m, l0, l24, 99463L, 3L);
               break L2;
              }
              Words.put32(b, ((int) l7) - 58760, (int) l18);
              f296(m, l0, l7 + 141L, 98160L, 3L, l7 + 152L);
              break L2;
             }
             l26 = Core7.f218(m, l2, l3, l16, l15);
             Words.put16(b, ((int) l7) - 58764, (short) ((int) l20));
             Words.put16(b, ((int) l7) - 58766, (short) ((int) l18));
             Words.put16(b, ((int) l7) - 58768, (short) ((int) (l17 >>> 16L)));
             f296(m, l0, l7 + 141L, l26 != 0 ? 99466L : 98160L, l26 != 0 ? 6L : 3L, l7 + 144L);
             break L2;
            }
            l26 = l23 & 65280;
            l30 = 1;
            L62: {
             if (Core5.f175(m, l2, l3) != 0) { break L62; }
             if (Core5.f170(m, 85988L, 2L, 85996L, 9L, l2, l3) != 0) { break L62; }
             l30 = Core5.f170(m, 85980L, 1L, 85984L, 1L, l2, l3);
            }
            l31 = l26 >>> 8;
            l6 = 0L;
            Words.put64(b, ((int) l7) - 58696, 0L);
            Words.put64(b, ((int) l7) - 58688, 0L);
            Words.put64(b, ((int) l7) - 58680, 0L);
            Words.put64(b, ((int) l7) - 58672, 0L);
            l2 = ((l24 & 255) != 0) ? 69676L : 69244L;
            l4 = Words.get64(b, State.far((int) (l1 = (l1 & 255L) << 3L), 102544));
            l5 = Words.get64(b, State.far((int) l1, 102288));
            l3 = (l7 + 528L) | 2L;
            l22 = 0;
            l27 = 0;
            l26 = 0;
            l25 = 0;
            final int x123 = f290_2(m, l0, l1, l2, l3, l4, l5, l6, l7, l14, l15, l16, l17, l18, l19, l22, l23, l24, l25, l26, l27, l28, l29, l30, l31, l32, l33, l34, l35);
            l1 = m.kept[0];
            l6 = m.kept[1];
            l14 = m.kept[2];
            l15 = m.kept[3];
            l16 = m.kept[4];
            l17 = m.kept[5];
            l18 = m.kept[6];
            l19 = m.kept[7];
            l22 = (int) m.kept[8];
            l25 = (int) m.kept[9];
            l26 = (int) m.kept[10];
            l27 = (int) m.kept[11];
            l28 = (int) m.kept[12];
            l32 = (int) m.kept[13];
            l33 = (int) m.kept[14];
            l34 = (int) m.kept[15];
            l35 = (int) m.kept[16];
            switch (x123) {
            default: break L2;
            }
           }
           l14 = Words.get64(b, ((int) l6) - 58792);
           l28 = (int) l17;
           l6 = l16 = Words.get64(b, ((int) l6) - 58856);
           l15 = l20;
           L124: {
            L125: while (true) {
             if (l15 == 0L) { break L124; }
             l26 = (l25 = (int) b[((int) l6) - 58912]) & 255;
             l17 = 1L;
             L126: {
              if (l25 > -1) { break L126; }
              l22 = (b[((int) l6) - 58911] & 0xff) & 63;
              L127: {
               if (l25 + Integer.MIN_VALUE > 2147483615) { break L127; }
               l26 = ((l26 << 6) & 1984) | l22;
               l17 = 2L;
               break L126;
              }
              l27 = (b[((int) l6) - 58910] & 0xff) & 63;
              L128: {
               if (l25 + Integer.MIN_VALUE > 2147483631) { break L128; }
               l26 = ((l22 << 6) | ((l26 << 12) & 61440)) | l27;
               l17 = 3L;
               break L126;
              }
              l26 = ((l27 << 6) | ((l22 << 12) | ((l26 << 18) & 1835008))) | ((b[((int) l6) - 58909] & 0xff) & 63);
              l17 = 4L;
             }
             L129: {
              if ((l26 + -48) + Integer.MIN_VALUE < -2147483638) { break L129; }
              l15 = l15 - l17;
              l6 = l6 + l17;
              if ((l26 + -65296) + Integer.MIN_VALUE > -2147483639) { continue L125; }
             }
             break L125;
            }
            Core7.f219(m, l7 + 48L, l16, l20);
            l6 = Words.get64(b, ((int) l7) - 58864);
            if ((l17 = Words.get64(b, ((int) l7) - 58856)) == 0L) { break L45; }
            L130: {
             if ((l26 = (int) b[((int) l6) - 58912]) > -1) { break L130; }
             l25 = l26 & 255;
             l22 = (b[((int) l6) - 58911] & 0xff) & 63;
             L131: {
              if (l26 + Integer.MIN_VALUE < 2147483616) { break L131; }
              l27 = (b[((int) l6) - 58910] & 0xff) & 63;
              L132: {
               L133: {
                if (l26 + Integer.MIN_VALUE > 2147483631) { break L133; }
                l26 = ((l22 << 6) | ((l25 << 12) & 61440)) | l27;
                l15 = 3L;
                if (l17 != 3L) { break L132; }
                if (l26 != 50) { break L132; }
                break L46;
               }
               l26 = ((l27 << 6) | ((l22 << 12) | ((l25 << 18) & 1835008))) | ((b[((int) l6) - 58909] & 0xff) & 63);
               l15 = 4L;
               if (l17 != 4L) { break L132; }
               if (l26 == 50) { break L46; }
              }
              if ((l28 & 255) == 4) { break L45; }
              if (l17 != l15) { break L45; }
              if (l26 == 65298) { break L44; }
              break L45;
             }
             if ((l28 & 255) == 4) { break L45; }
             if (l17 != 2L) { break L45; }
             if ((((l25 << 6) & 1984) | l22) != 50) { break L45; }
             break L44;
            }
            if ((l28 & 255) == 4) { break L45; }
            if (l17 != 1L) { break L45; }
            if (l26 != 50) { break L45; }
            break L44;
           }
           Core2.f53(m, l0, l16, l20);
           break L43;
          }
          l5 = Words.get64(b, ((int) l6) - 58808);
          l6 = l1;
          l16 = l19;
          L134: {
           L135: while (true) {
            if (l16 == 0L) { break L134; }
            l26 = (l25 = (int) b[((int) l6) - 58912]) & 255;
            l17 = 1L;
            L136: {
             if (l25 > -1) { break L136; }
             l22 = (b[((int) l6) - 58911] & 0xff) & 63;
             L137: {
              if (l25 + Integer.MIN_VALUE > 2147483615) { break L137; }
              l26 = ((l26 << 6) & 1984) | l22;
              l17 = 2L;
              break L136;
             }
             l27 = (b[((int) l6) - 58910] & 0xff) & 63;
             L138: {
              if (l25 + Integer.MIN_VALUE > 2147483631) { break L138; }
              l26 = ((l22 << 6) | ((l26 << 12) & 61440)) | l27;
              l17 = 3L;
              break L136;
             }
             l26 = ((l27 << 6) | ((l22 << 12) | ((l26 << 18) & 1835008))) | ((b[((int) l6) - 58909] & 0xff) & 63);
             l17 = 4L;
            }
            L139: {
             if (l26 == 37) { break L139; }
             if (l26 == 65285) { break L139; }
             l16 = l16 - l17;
             l6 = l6 + l17;
             if (l26 != 8240) { continue L135; }
            }
            break L135;
           }
           l6 = l15;
           l16 = l14;
           L140: while (true) {
            if (l16 == 0L) { break L48; }
            l26 = (l25 = (int) b[((int) l6) - 58912]) & 255;
            l17 = 1L;
            L141: {
             if (l25 > -1) { break L141; }
             l22 = (b[((int) l6) - 58911] & 0xff) & 63;
             L142: {
              if (l25 + Integer.MIN_VALUE > 2147483615) { break L142; }
              l26 = ((l26 << 6) & 1984) | l22;
              l17 = 2L;
              break L141;
             }
             l27 = (b[((int) l6) - 58910] & 0xff) & 63;
             L143: {
              if (l25 + Integer.MIN_VALUE > 2147483631) { break L143; }
              l26 = ((l22 << 6) | ((l26 << 12) & 61440)) | l27;
              l17 = 3L;
              break L141;
             }
             l26 = ((l27 << 6) | ((l22 << 12) | ((l26 << 18) & 1835008))) | ((b[((int) l6) - 58909] & 0xff) & 63);
             l17 = 4L;
            }
            if (l26 == 37) { break L134; }
            if (l26 == 8240) { break L134; }
            l16 = l16 - l17;
            l6 = l6 + l17;
            if (l26 != 65285) { continue L140; }
            break L140;
           }
          }
          L144: {
           if (f298(m, l2, l3, l15, l14, l5, l18) == 0) { break L144; }
           f292(m, l0, l24, 20004);
           break L47;
          }
          Words.put16(b, ((int) l7) - 58623, (short) l23);
          b[((int) l7) - 58624] = (byte) l24;
          f299(m, l0, l7 + 288L, l2, l3, l15, l14);
          L145: {
           L146: {
            if (!(l14 == 0L)) { break L146; }
            l4 = 0L;
            break L145;
           }
           l16 = l14;
           l6 = l15;
           L147: while (true) {
            l26 = (l25 = (int) b[((int) l6) - 58912]) & 255;
            l17 = 1L;
            L148: {
             if (l25 > -1) { break L148; }
             l22 = (b[((int) l6) - 58911] & 0xff) & 63;
             L149: {
              if (l25 + Integer.MIN_VALUE > 2147483615) { break L149; }
              l26 = ((l26 << 6) & 1984) | l22;
              l17 = 2L;
              break L148;
             }
             l27 = (b[((int) l6) - 58910] & 0xff) & 63;
             L150: {
              if (l25 + Integer.MIN_VALUE > 2147483631) { break L150; }
              l26 = ((l22 << 6) | ((l26 << 12) & 61440)) | l27;
              l17 = 3L;
              break L148;
             }
             l26 = ((l27 << 6) | ((l22 << 12) | ((l26 << 18) & 1835008))) | ((b[((int) l6) - 58909] & 0xff) & 63);
             l17 = 4L;
            }
            L151: {
             if ((l26 + -48) + Integer.MIN_VALUE < -2147483638) { break L151; }
             if ((l26 + -65296) + Integer.MIN_VALUE < -2147483638) { break L151; }
             if (l26 == 65292) { break L151; }
             if (l26 == 44) { break L151; }
             l4 = l16;
             break L145;
            }
            l6 = l6 + l17;
            l4 = 0L;
            if ((l16 = l16 - l17) != 0L) { continue L147; }
            break L147;
           }
          }
          if (Core6.f199(m, 99, l15, l14 - l4) != 0) { break L47; }
          Core3.f81(m, l7 + 64L, l15, l14, l1, l19);
          Core2.f53(m, l0, Words.get64(b, ((int) l7) - 58848), Words.get64(b, ((int) l7) - 58840));
          break L47;
         }
         f290_3(m, l0, l1, l4, l5, l6, l7, l14, l15, l16, l17, l19, l22, l24, l25, l26, l27, l28);
         l1 = m.kept[0];
         l6 = m.kept[1];
         l14 = m.kept[2];
         l15 = m.kept[3];
         l19 = m.kept[4];
         l22 = (int) m.kept[5];
         l25 = (int) m.kept[6];
         l26 = (int) m.kept[7];
         l27 = (int) m.kept[8];
         l28 = (int) m.kept[9];
         f290_4(m, l0, l1, l2, l3, l4, l6, l7, l15, l16, l17, l19, l22, l23, l24, l25, l26);
         l6 = m.kept[0];
         l15 = m.kept[1];
         l19 = m.kept[2];
         l22 = (int) m.kept[3];
         l23 = (int) m.kept[4];
         l25 = (int) m.kept[5];
         l26 = (int) m.kept[6];
         Core7.f225(m, l7 + 80L, l4, l1);
         L195: {
          if (Words.get64(b, ((int) l7) - 58824) == 0L) { break L195; }
          l26 = (l25 = (int) b[((int) (l6 = Words.get64(b, ((int) l7) - 58832))) - 58912]) & 255;
          L196: {
           if (l25 > -1) { break L196; }
           l22 = (b[((int) l6) - 58911] & 0xff) & 63;
           L197: {
            if (l25 + Integer.MIN_VALUE > 2147483615) { break L197; }
            l26 = ((l26 << 6) & 1984) | l22;
            break L196;
           }
           l23 = (b[((int) l6) - 58910] & 0xff) & 63;
           L198: {
            if (l25 + Integer.MIN_VALUE > 2147483631) { break L198; }
            l26 = ((l22 << 6) | ((l26 << 12) & 61440)) | l23;
            break L196;
           }
           l26 = ((l23 << 6) | ((l22 << 12) | ((l26 << 18) & 1835008))) | ((b[((int) l6) - 58909] & 0xff) & 63);
          }
          L199: {
           if (l26 == 65509) { break L199; }
           if (l26 != 165) { break L195; }
          }
          f292(m, l0, l24, 20803);
         }
         Words.put64(b, ((int) l7) - 58592, 0L);
         Words.put64(b, ((int) l7) - 58600, 0L);
         Words.put64(b, ((int) l7) - 58608, 0L);
         Words.put64(b, ((int) l7) - 58616, 0L);
         Words.put64(b, ((int) l7) - 58624, 0L);
         Core6.f193(m, l7 + 288L, l17, l16);
         if ((b[((int) l7) - 58624] & 0xff) != 1) { break L2; }
         f295(m, l0, l24, Words.get64(b, ((int) l7) - 58616), Words.get64(b, ((int) l7) - 58608));
         break L2;
        }
        Words.put16(b, ((int) l7) - 58623, (short) l23);
        b[((int) l7) - 58624] = (byte) l24;
        f295(m, l0, l24, 99496L, 9L);
        f299(m, l0, l7 + 288L, l2, l3, l15, l14);
       }
       L200: {
        L201: {
         if (((int) l20) == 33267) { break L201; }
         Words.put32(b, ((int) l7) - 58624, 11569381);
         Core2.f53(m, l0, l7 + 288L, 3L);
         break L200;
        }
        Words.put32(b, ((int) l7) - 58624, 11765736);
        Core2.f53(m, l0, l7 + 288L, 3L);
       }
       Words.put16(b, ((int) l7) - 58623, (short) l23);
       b[((int) l7) - 58624] = (byte) l24;
       L202: {
        L203: {
         if (f298(m, l2, l3, l1, l19, l5, l18) == 0) { break L203; }
         f292(m, l0, l24, 20004);
         break L202;
        }
        f299(m, l0, l7 + 288L, l2, l3, l1, l19);
       }
       Words.put64(b, ((int) l7) - 58592, 0L);
       Words.put64(b, ((int) l7) - 58600, 0L);
       Words.put64(b, ((int) l7) - 58608, 0L);
       Words.put64(b, ((int) l7) - 58616, 0L);
       Words.put64(b, ((int) l7) - 58624, 0L);
       Core6.f193(m, l7 + 288L, l5, l18);
       if ((b[((int) l7) - 58624] & 0xff) != 1) { break L2; }
       f295(m, l0, l24, Words.get64(b, ((int) l7) - 58616), Words.get64(b, ((int) l7) - 58608));
       break L2;
      }
      if ((l28 & 255) != 4) { break L44; }
     }
     Words.put16(b, ((int) l7) - 58623, (short) l23);
     b[((int) l7) - 58624] = (byte) l24;
     f301(m, l0, l7 + 288L, 83372L, 0L, l6, l17);
     break L43;
    }
    f295(m, l0, l24, 99472L, 3L);
   }
   L204: {
    if ((l28 & 255) != 0) { break L204; }
    L205: {
     if (l14 == 0L) { break L205; }
     if ((l26 = (int) b[((int) l18) - 58912]) > -1) { break L205; }
     if (l26 + Integer.MIN_VALUE < 2147483616) { break L205; }
     l25 = l26 & 255;
     l22 = (b[((int) l18) - 58911] & 0xff) & 63;
     l23 = (b[((int) l18) - 58910] & 0xff) & 63;
     L206: {
      L207: {
       if (l26 + Integer.MIN_VALUE > 2147483631) { break L207; }
       l26 = ((l22 << 6) | ((l25 << 12) & 61440)) | l23;
       break L206;
      }
      l26 = ((l23 << 6) | ((l22 << 12) | ((l25 << 18) & 1835008))) | ((b[((int) l18) - 58909] & 0xff) & 63);
     }
     L208: {
      if (l26 > 22358) { break L208; }
      L209: {
       switch (l26 + -22278) {
       case 0: case 13: break L204;
       case 1: case 2: case 3: case 4: case 5: case 6: case 7: case 8: case 9: case 10: case 11: case 12: break L205;
       default: break L209;
       }
      }
      if (l26 != 20803) { break L205; }
      break L204;
     }
     if (l26 == 22359) { break L204; }
     if (l26 == 22602) { break L204; }
    }
    f295(m, l0, l24, 99434L, 3L);
   }
   if (l19 == 0L) { break L2; }
   l15 = ((l24 & 255) != 0) ? 69784L : 69352L;
   final int x225 = f290_5(m, l0, l1, l6, l7, l15, l17, l19, l22, l23, l25, l26);
   l1 = m.kept[0];
   l6 = m.kept[1];
   l17 = m.kept[2];
   l19 = m.kept[3];
   l22 = (int) m.kept[4];
   l23 = (int) m.kept[5];
   l25 = (int) m.kept[6];
   l26 = (int) m.kept[7];
   switch (x225) {
   case 1: break L1;
   }
  }
  L226: {
   L227: {
    if ((l24 & 255) != 0) { break L227; }
    if (l12 == 0L) { break L227; }
    if ((l26 = (int) b[((int) l13) - 58912]) > -1) { break L227; }
    if (l26 + Integer.MIN_VALUE < 2147483616) { break L227; }
    l25 = l26 & 255;
    l22 = (b[((int) l13) - 58911] & 0xff) & 63;
    l23 = (b[((int) l13) - 58910] & 0xff) & 63;
    L228: {
     L229: {
      if (l26 + Integer.MIN_VALUE > 2147483631) { break L229; }
      l26 = ((l22 << 6) | ((l25 << 12) & 61440)) | l23;
      break L228;
     }
     l26 = ((l23 << 6) | ((l22 << 12) | ((l25 << 18) & 1835008))) | ((b[((int) l13) - 58909] & 0xff) & 63);
    }
    if (l26 != 32654) { break L227; }
    Words.put32(b, ((int) l7) - 58624, 8619493);
    Core2.f53(m, l0, l7 + 288L, 3L);
    break L226;
   }
   f295(m, l0, l24, l13, l12);
  }
  L230: {
   if ((l21 & 255) != 1) { break L230; }
   Core2.f53(m, l0, l11, l10);
   f295(m, l0, l24, l9, l8);
  }
  m.g0 = l7 + 544L;
  return;
 }
 throw State.trap();
}

static void f291(State m, long l0, long l1, long l2, long l3) {
 final byte[] b = m.bytes;
 long l4 = 0;
 int l5 = 0;
 int l6 = 0;
 int l7 = 0;
 int l8 = 0;
 int l9 = 0;
 m.g0 = l4 = m.g0 - 272L;
 L1: {
  if ((l4 = l4) < 16L) { break L1; }
  l5 = b[((int) l1) - 58911] & 0xff;
  l6 = b[((int) l1) - 58912] & 0xff;
  Core6.f201(m, l4, l2, l3);
  L2: {
   L3: {
    if ((b[((int) l4) - 58912] & 0xff) != 1) { break L3; }
    l2 = Words.get64(b, ((int) l4) - 58904);
    m.fill((int) (l4 + 21L), 0, (int) 235L);
    Words.put32(b, ((int) l4) - 58654, 0);
    b[((int) l4) - 58655] = (byte) 1;
    Words.put16(b, ((int) l4) - 58650, (short) 0);
    b[((int) l4) - 58656] = (byte) l6;
    Words.put64(b, ((int) l4) - 58648, ((l6 & 255) != 0) ? 69676L : 69244L);
    Core2.f53(m, l0, (l4 + 21L) + (l2 = Core2.f49(m, l4 + 21L, l4 + 256L, l5, 0, l2, 0L)), 235L - l2);
    break L2;
   }
   if (l3 == 0L) { break L2; }
   L4: while (true) {
    l5 = (l7 = (int) b[((int) l2) - 58912]) & 255;
    l1 = 1L;
    L5: {
     if (l7 > -1) { break L5; }
     l8 = (b[((int) l2) - 58911] & 0xff) & 63;
     L6: {
      if (l7 + Integer.MIN_VALUE > 2147483615) { break L6; }
      l5 = ((l5 << 6) & 1984) | l8;
      l1 = 2L;
      break L5;
     }
     l9 = (b[((int) l2) - 58910] & 0xff) & 63;
     L7: {
      if (l7 + Integer.MIN_VALUE > 2147483631) { break L7; }
      l5 = ((l8 << 6) | ((l5 << 12) & 61440)) | l9;
      l1 = 3L;
      break L5;
     }
     l5 = ((l9 << 6) | ((l8 << 12) | ((l5 << 18) & 1835008))) | ((b[((int) l2) - 58909] & 0xff) & 63);
     l1 = 4L;
    }
    l3 = l3 - l1;
    L8: {
     if (l5 == 44) { break L8; }
     if (l5 == 65292) { break L8; }
     f293(m, l0, l6, l5);
    }
    l2 = l2 + l1;
    if (l3 != 0L) { continue L4; }
    break L4;
   }
  }
  m.g0 = l4 + 272L;
  return;
 }
 throw State.trap();
}

static void f292(State m, long l0, int l1, int l2) {
 final byte[] b = m.bytes;
 long l3 = 0;
 long l4 = 0;
 m.g0 = l3 = m.g0 - 16L;
 L1: {
  if ((l3 = l3) < 16L) { break L1; }
  l2 = f302(m, l1, l2);
  Words.put32(b, ((int) l3) - 58900, 0);
  L2: {
   L3: {
    if (l2 + Integer.MIN_VALUE > -2147483521) { break L3; }
    b[((int) l3) - 58900] = (byte) l2;
    l4 = 1L;
    break L2;
   }
   L4: {
    if (l2 + Integer.MIN_VALUE > -2147481601) { break L4; }
    b[((int) l3) - 58899] = (byte) ((l2 & 63) | 128);
    b[((int) l3) - 58900] = (byte) ((l2 >>> 6) | 192);
    l4 = 2L;
    break L2;
   }
   L5: {
    if (l2 + Integer.MIN_VALUE > -2147418113) { break L5; }
    b[((int) l3) - 58898] = (byte) ((l2 & 63) | 128);
    b[((int) l3) - 58900] = (byte) ((l2 >>> 12) | 224);
    b[((int) l3) - 58899] = (byte) (((l2 >>> 6) & 63) | 128);
    l4 = 3L;
    break L2;
   }
   b[((int) l3) - 58897] = (byte) ((l2 & 63) | 128);
   b[((int) l3) - 58900] = (byte) ((l2 >>> 18) + -16);
   b[((int) l3) - 58898] = (byte) (((l2 >>> 6) & 63) | 128);
   b[((int) l3) - 58899] = (byte) (((l2 >>> 12) & 63) | 128);
   l4 = 4L;
  }
  Core2.f53(m, l0, l3 + 12L, l4);
  m.g0 = l3 + 16L;
  return;
 }
 throw State.trap();
}

static void f293(State m, long l0, int l1, int l2) {
 final byte[] b = m.bytes;
 long l3 = 0;
 long l4 = 0;
 int l5 = 0;
 int l6 = 0;
 m.g0 = l3 = m.g0 - 16L;
 L1: {
  if ((l4 = l3) < 16L) { break L1; }
  l3 = 4L;
  L2: {
   if (l2 == 24186) { break L2; }
   l3 = -44L;
   L3: {
    L4: while (true) {
     if ((l5 = Words.get32(b, ((int) (l3 + 87508L)) - 58912)) == l2) { break L3; }
     l6 = (l3 != 0L) ? 1 : 0;
     l3 = l3 + 4L;
     if (l6 != 0) { continue L4; }
     break L4;
    }
   }
   L5: {
    L6: {
     if (l5 != l2) { break L6; }
     Core2.f63(m, l4, l2);
     l6 = b[((int) l4) - 58911] & 0xff;
     l2 = b[((int) l4) - 58912] & 0xff;
     break L5;
    }
    Core1.f24(m, l4 + 8L, l2);
    l6 = b[((int) l4) - 58903] & 0xff;
    l2 = b[((int) l4) - 58904] & 0xff;
   }
   l3 = (((((l2 & 255) == 1) ? l6 : 0) & 0xffffffffL) & 255L) << 2L;
  }
  if (((l6 = Words.get32(b, ((int) ((((l1 & 255) != 0) ? 69784L : 69352L) + l3)) - 58912)) + -55296) + Integer.MIN_VALUE <= 2147430399) { break L1; }
  Words.put32(b, ((int) l4) - 58900, 0);
  b[((int) l4) - 58898] = (byte) ((l6 & 63) | 128);
  b[((int) l4) - 58900] = (byte) ((l6 >>> 12) | 224);
  b[((int) l4) - 58899] = (byte) (((l6 >>> 6) & 63) | 128);
  Core2.f53(m, l0, l4 + 12L, 3L);
  m.g0 = l4 + 16L;
  return;
 }
 throw State.trap();
}

static void f294(State m, long l0, long l1, int l2, long l3, long l4) {
 final byte[] b = m.bytes;
 long l5 = 0;
 long l6 = 0;
 int l7 = 0;
 int l8 = 0;
 int l9 = 0;
 int l10 = 0;
 int l11 = 0;
 int l12 = 0;
 m.g0 = l5 = m.g0 - 32L;
 L1: {
  if ((l6 = l5) < 16L) { break L1; }
  L2: {
   if (l4 == 0L) { break L2; }
   l7 = b[((int) l1) - 58910] & 0xff;
   l8 = b[((int) l1) - 58912] & 0xff;
   L3: while (true) {
    l10 = (l9 = (int) b[((int) l3) - 58912]) & 255;
    l5 = 1L;
    L4: {
     if (l9 > -1) { break L4; }
     l11 = (b[((int) l3) - 58911] & 0xff) & 63;
     L5: {
      if (l9 + Integer.MIN_VALUE > 2147483615) { break L5; }
      l10 = ((l10 << 6) & 1984) | l11;
      l5 = 2L;
      break L4;
     }
     l12 = (b[((int) l3) - 58910] & 0xff) & 63;
     L6: {
      if (l9 + Integer.MIN_VALUE > 2147483631) { break L6; }
      l10 = ((l11 << 6) | ((l10 << 12) & 61440)) | l12;
      l5 = 3L;
      break L4;
     }
     l10 = ((l12 << 6) | ((l11 << 12) | ((l10 << 18) & 1835008))) | ((b[((int) l3) - 58909] & 0xff) & 63);
     l5 = 4L;
    }
    l4 = l4 - l5;
    L7: {
     L8: {
      L9: {
       if ((l10 + -48) + Integer.MIN_VALUE < -2147483638) { break L9; }
       if ((l10 + -65296) + Integer.MIN_VALUE > -2147483639) { break L8; }
      }
      l1 = -44L;
      L10: {
       L11: while (true) {
        if ((l11 = Words.get32(b, ((int) (l1 + 87508L)) - 58912)) == l10) { break L10; }
        l9 = (l1 != 0L) ? 1 : 0;
        l1 = l1 + 4L;
        if (l9 != 0) { continue L11; }
        break L11;
       }
      }
      L12: {
       L13: {
        if (l11 != l10) { break L13; }
        Core2.f63(m, l6 + 8L, l10);
        l11 = b[((int) l6) - 58903] & 0xff;
        l9 = b[((int) l6) - 58904] & 0xff;
        break L12;
       }
       Core1.f24(m, l6 + 16L, l10);
       l11 = b[((int) l6) - 58895] & 0xff;
       l9 = b[((int) l6) - 58896] & 0xff;
      }
      L14: {
       if ((l9 & 255) != 1) { break L14; }
       if ((l11 & 255) != 1) { break L14; }
       L15: {
        if ((l7 & 255) != 0) { break L15; }
        Words.put32(b, ((int) l6) - 58888, 8435940);
        Core2.f53(m, l0, l6 + 24L, 3L);
        break L7;
       }
       Words.put32(b, ((int) l6) - 58884, 12237285);
       Core2.f53(m, l0, l6 + 28L, 3L);
       break L7;
      }
      f293(m, l0, l8, l10);
      break L7;
     }
     L16: {
      L17: {
       switch ((int) ((l2 & 0xffffffffL) & 255L)) {
       case 1: break L17;
       case 2: break L16;
       default: break L7;
       }
      }
      f292(m, l0, l8, 28857);
      break L7;
     }
     f292(m, l0, l8, 26464);
    }
    l3 = l3 + l5;
    if (l4 != 0L) { continue L3; }
    break L3;
   }
  }
  m.g0 = l6 + 32L;
  return;
 }
 throw State.trap();
}

static void f295(State m, long l0, int l1, long l2, long l3) {
 final byte[] b = m.bytes;
 long l4 = 0;
 long l5 = 0;
 long l6 = 0;
 int l7 = 0;
 int l8 = 0;
 int l9 = 0;
 int l10 = 0;
 m.g0 = l4 = m.g0 - 16L;
 L1: {
  if ((l4 = l4) < 16L) { break L1; }
  L2: {
   if (l3 == 0L) { break L2; }
   L3: while (true) {
    l8 = (l7 = (int) b[((int) l2) - 58912]) & 255;
    l5 = 1L;
    L4: {
     if (l7 > -1) { break L4; }
     l9 = (b[((int) l2) - 58911] & 0xff) & 63;
     L5: {
      if (l7 + Integer.MIN_VALUE > 2147483615) { break L5; }
      l8 = ((l8 << 6) & 1984) | l9;
      l5 = 2L;
      break L4;
     }
     l10 = (b[((int) l2) - 58910] & 0xff) & 63;
     L6: {
      if (l7 + Integer.MIN_VALUE > 2147483631) { break L6; }
      l8 = ((l9 << 6) | ((l8 << 12) & 61440)) | l10;
      l5 = 3L;
      break L4;
     }
     l8 = ((l10 << 6) | ((l9 << 12) | ((l8 << 18) & 1835008))) | ((b[((int) l2) - 58909] & 0xff) & 63);
     l5 = 4L;
    }
    l8 = f302(m, l1, l8);
    Words.put32(b, ((int) l4) - 58900, 0);
    l3 = l3 - l5;
    L7: {
     L8: {
      if (l8 + Integer.MIN_VALUE > -2147483521) { break L8; }
      b[((int) l4) - 58900] = (byte) l8;
      l6 = 1L;
      break L7;
     }
     L9: {
      if (l8 + Integer.MIN_VALUE > -2147481601) { break L9; }
      b[((int) l4) - 58899] = (byte) ((l8 & 63) | 128);
      b[((int) l4) - 58900] = (byte) ((l8 >>> 6) | 192);
      l6 = 2L;
      break L7;
     }
     L10: {
      if (l8 + Integer.MIN_VALUE > -2147418113) { break L10; }
      b[((int) l4) - 58898] = (byte) ((l8 & 63) | 128);
      b[((int) l4) - 58900] = (byte) ((l8 >>> 12) | 224);
      b[((int) l4) - 58899] = (byte) (((l8 >>> 6) & 63) | 128);
      l6 = 3L;
      break L7;
     }
     b[((int) l4) - 58897] = (byte) ((l8 & 63) | 128);
     b[((int) l4) - 58900] = (byte) ((l8 >>> 18) + -16);
     b[((int) l4) - 58898] = (byte) (((l8 >>> 6) & 63) | 128);
     b[((int) l4) - 58899] = (byte) (((l8 >>> 12) & 63) | 128);
     l6 = 4L;
    }
    l2 = l2 + l5;
    Core2.f53(m, l0, l4 + 12L, l6);
    if (l3 != 0L) { continue L3; }
    break L3;
   }
  }
  m.g0 = l4 + 16L;
  return;
 }
 throw State.trap();
}

static void f296(State m, long l0, long l1, long l2, long l3, long l4) {
 final byte[] b = m.bytes;
 long l5 = 0;
 int l6 = 0;
 int l7 = 0;
 int l8 = 0;
 int l9 = 0;
 int l10 = 0;
 int l11 = 0;
 m.g0 = l5 = m.g0 - 256L;
 L1: {
  if ((l5 = l5) < 16L) { break L1; }
  l6 = Words.get16(b, ((int) l4) - 58908) & 0xffff;
  l7 = Words.get16(b, ((int) l4) - 58910) & 0xffff;
  l8 = b[((int) l1) - 58910] & 0xff;
  l9 = b[((int) l1) - 58911] & 0xff;
  l10 = b[((int) l1) - 58912] & 0xff;
  L2: {
   L3: {
    if ((l11 = Words.get16(b, ((int) l4) - 58912) & 0xffff) != 2) { break L3; }
    f295(m, l0, l10, 99472L, 3L);
    break L2;
   }
   m.fill((int) (l5 + 5L), 0, (int) 235L);
   Words.put32(b, ((int) l5) - 58670, 0);
   b[((int) l5) - 58671] = (byte) 1;
   Words.put16(b, ((int) l5) - 58666, (short) 0);
   b[((int) l5) - 58672] = (byte) l10;
   Words.put64(b, ((int) l5) - 58664, ((l10 & 255) != 0) ? 69676L : 69244L);
   Core2.f53(m, l0, (l5 + 5L) + (l4 = Core2.f49(m, l5 + 5L, l5 + 240L, l9, 0, l11 & 0xffffffffL, 0L)), 235L - l4);
  }
  f295(m, l0, l10, l2, l3);
  L4: {
   L5: {
    if ((l7 & 65535) == 0) { break L5; }
    b[((int) l5) - 58905] = (byte) l8;
    b[((int) l5) - 58906] = (byte) l9;
    b[((int) l5) - 58907] = (byte) l10;
    f303(m, l0, l5 + 5L, l7);
    f295(m, l0, l10, 99475L, 3L);
    if ((l6 & 65535) == 0) { break L4; }
    f303(m, l0, l5 + 5L, l6);
    f295(m, l0, l10, 99481L, 3L);
    break L4;
   }
   if ((l6 & 65535) == 0) { break L4; }
   b[((int) l5) - 58908] = (byte) l8;
   b[((int) l5) - 58909] = (byte) l9;
   b[((int) l5) - 58910] = (byte) l10;
   m.fill((int) (l5 + 5L), 0, (int) 235L);
   Words.put32(b, ((int) l5) - 58670, 0);
   b[((int) l5) - 58671] = (byte) 1;
   b[((int) l5) - 58672] = (byte) l10;
   Words.put16(b, ((int) l5) - 58666, (short) 0);
   Words.put64(b, ((int) l5) - 58664, ((l10 & 255) != 0) ? 69676L : 69244L);
   Core2.f53(m, l0, (l5 + 5L) + (l4 = Core2.f49(m, l5 + 5L, l5 + 240L, l9, 0, 0L, 0L)), 235L - l4);
   f295(m, l0, l10, 99475L, 3L);
   f303(m, l0, l5 + 2L, l6);
   f295(m, l0, l10, 99481L, 3L);
  }
  m.g0 = l5 + 256L;
  return;
 }
 throw State.trap();
}

static void f297(State m, long l0, long l1, long l2, long l3, int l4) {
 final byte[] b = m.bytes;
 long l5 = 0;
 int l6 = 0;
 int l7 = 0;
 m.g0 = l5 = m.g0 - 256L;
 b[((int) (l5 = l5)) - 58908] = (byte) (b[((int) l1) - 58910] & 0xff);
 Words.put16(b, ((int) l5) - 58910, (short) (Words.get16(b, ((int) l1) - 58912) & 0xffff));
 L1: {
  if (l5 < 16L) { break L1; }
  L2: {
   L3: {
    if (l3 == 0L) { break L3; }
    L4: {
     L5: {
      if ((l6 = (int) b[((int) l2) - 58912]) <= -1) { break L5; }
      l1 = 1L;
      break L4;
     }
     L6: {
      if (l6 + Integer.MIN_VALUE >= 2147483616) { break L6; }
      l1 = 2L;
      break L4;
     }
     l1 = (l6 + Integer.MIN_VALUE < 2147483632) ? 3L : 4L;
    }
    if (l3 == l1) { break L3; }
    L7: {
     L8: {
      if ((l6 = (int) b[((int) (l2 + l1)) - 58912]) <= -1) { break L8; }
      l2 = 1L;
      break L7;
     }
     L9: {
      if (l6 + Integer.MIN_VALUE >= 2147483616) { break L9; }
      l2 = 2L;
      break L7;
     }
     l2 = (l6 + Integer.MIN_VALUE < 2147483632) ? 3L : 4L;
    }
    if (l3 != (l1 + l2)) { break L3; }
    f303(m, l0, l5 + 2L, l4);
    break L2;
   }
   l7 = b[((int) l5) - 58909] & 0xff;
   l6 = b[((int) l5) - 58910] & 0xff;
   m.fill((int) (l5 + 5L), 0, (int) 235L);
   Words.put32(b, ((int) l5) - 58670, 0);
   b[((int) l5) - 58671] = (byte) 1;
   b[((int) l5) - 58672] = (byte) l6;
   Words.put16(b, ((int) l5) - 58666, (short) 0);
   Words.put64(b, ((int) l5) - 58664, l6 != 0 ? 69676L : 69244L);
   Core2.f53(m, l0, (l5 + 5L) + (l1 = Core2.f49(m, l5 + 5L, l5 + 240L, l7, 0, (l4 & 0xffffffffL) & 65535L, 0L)), 235L - l1);
  }
  m.g0 = l5 + 256L;
  return;
 }
 throw State.trap();
}

static int f298(State m, long l0, long l1, long l2, long l3, long l4, long l5) {
 final byte[] b = m.bytes;
 long l6 = 0;
 long l7 = 0;
 int l8 = 0;
 int l9 = 0;
 int l10 = 0;
 int l11 = 0;
 int l12 = 0;
 m.g0 = l6 = m.g0 - 64L;
 L1: {
  if ((l6 = l6) < 16L) { break L1; }
  l8 = 0;
  L2: {
   if (l3 == 0L) { break L2; }
   L3: {
    L4: {
     L5: {
      L6: {
       if ((l9 = (int) b[((int) l2) - 58912]) > -1) { break L6; }
       l10 = l9 & 255;
       l11 = (b[((int) l2) - 58911] & 0xff) & 63;
       L7: {
        if (l9 + Integer.MIN_VALUE < 2147483616) { break L7; }
        l12 = (b[((int) l2) - 58910] & 0xff) & 63;
        L8: {
         L9: {
          if (l9 + Integer.MIN_VALUE > 2147483631) { break L9; }
          l12 = ((l11 << 6) | ((l10 << 12) & 61440)) | l12;
          l7 = 3L;
          break L8;
         }
         l12 = ((l12 << 6) | ((l11 << 12) | ((l10 << 18) & 1835008))) | ((b[((int) l2) - 58909] & 0xff) & 63);
         l7 = 4L;
        }
        L10: {
         if (l3 != l7) { break L10; }
         if (l12 == 50) { break L3; }
        }
        l12 = (b[((int) l2) - 58910] & 0xff) & 63;
        if (l9 + Integer.MIN_VALUE > 2147483631) { break L5; }
        l9 = ((l11 << 6) | ((l10 << 12) & 61440)) | l12;
        l7 = 3L;
        if (l3 != 3L) { break L4; }
        if (l9 != 65298) { break L4; }
        break L3;
       }
       if (l3 != 2L) { break L2; }
       if ((((l10 << 6) & 1984) | l11) == 50) { break L3; }
       break L2;
      }
      if (l3 != 1L) { break L2; }
      if (l9 == 50) { break L3; }
      break L2;
     }
     l9 = (l12 << 6) | ((l11 << 12) | ((l10 << 18) & 1835008));
     l7 = 4L;
     L11: {
      if (l3 != 4L) { break L11; }
      if ((l9 | ((b[((int) l2) - 58909] & 0xff) & 63)) == 65298) { break L3; }
     }
     l9 = l9 | ((b[((int) l2) - 58909] & 0xff) & 63);
    }
    if (l3 != l7) { break L2; }
    if (l9 != 20108) { break L2; }
   }
   Words.put64(b, ((int) l6) - 58896, 0L);
   Words.put64(b, ((int) l6) - 58904, 0L);
   Words.put64(b, ((int) l6) - 58912, 0L);
   Core6.f204(m, l6, 99720L, 3L, l0, l1);
   if ((b[((int) l6) - 58912] & 0xff) == 1) { break L2; }
   Words.put64(b, ((int) l6) - 58896, 0L);
   Words.put64(b, ((int) l6) - 58904, 0L);
   Words.put64(b, ((int) l6) - 58912, 0L);
   Core6.f204(m, l6, 99723L, 6L, l0, l1);
   if ((b[((int) l6) - 58912] & 0xff) == 1) { break L2; }
   Words.put64(b, ((int) l6) - 58896, 0L);
   Words.put64(b, ((int) l6) - 58904, 0L);
   Words.put64(b, ((int) l6) - 58912, 0L);
   Core6.f204(m, l6, 99729L, 9L, l0, l1);
   if ((b[((int) l6) - 58912] & 0xff) == 1) { break L2; }
   Words.put64(b, ((int) l6) - 58896, 0L);
   Words.put64(b, ((int) l6) - 58904, 0L);
   Words.put64(b, ((int) l6) - 58912, 0L);
   Core6.f204(m, l6, 99738L, 7L, l0, l1);
   if ((b[((int) l6) - 58912] & 0xff) == 1) { break L2; }
   Words.put64(b, ((int) l6) - 58896, 0L);
   Words.put64(b, ((int) l6) - 58904, 0L);
   Words.put64(b, ((int) l6) - 58912, 0L);
   Core6.f204(m, l6, 99745L, 7L, l0, l1);
   if ((b[((int) l6) - 58912] & 0xff) == 1) { break L2; }
   Words.put64(b, ((int) l6) - 58896, 0L);
   Words.put64(b, ((int) l6) - 58904, 0L);
   Words.put64(b, ((int) l6) - 58912, 0L);
   Core6.f204(m, l6, 99752L, 7L, l0, l1);
   if ((b[((int) l6) - 58912] & 0xff) == 1) { break L2; }
   Words.put64(b, ((int) l6) - 58896, 0L);
   Words.put64(b, ((int) l6) - 58904, 0L);
   Words.put64(b, ((int) l6) - 58912, 0L);
   Core6.f204(m, l6, 99759L, 7L, l0, l1);
   if ((b[((int) l6) - 58912] & 0xff) == 1) { break L2; }
   Words.put64(b, ((int) l6) - 58896, 0L);
   Words.put64(b, ((int) l6) - 58904, 0L);
   Words.put64(b, ((int) l6) - 58912, 0L);
   Core6.f204(m, l6, 99766L, 7L, l0, l1);
   if ((b[((int) l6) - 58912] & 0xff) == 1) { break L2; }
   Words.put64(b, ((int) l6) - 58896, 0L);
   Words.put64(b, ((int) l6) - 58904, 0L);
   Words.put64(b, ((int) l6) - 58912, 0L);
   Core6.f204(m, l6, 99773L, 6L, l0, l1);
   if ((b[((int) l6) - 58912] & 0xff) == 1) { break L2; }
   Words.put64(b, ((int) l6) - 58896, 0L);
   Words.put64(b, ((int) l6) - 58904, 0L);
   Words.put64(b, ((int) l6) - 58912, 0L);
   Core6.f204(m, l6, 99779L, 6L, l0, l1);
   if ((b[((int) l6) - 58912] & 0xff) == 1) { break L2; }
   Words.put64(b, ((int) l6) - 58896, 0L);
   Words.put64(b, ((int) l6) - 58904, 0L);
   Words.put64(b, ((int) l6) - 58912, 0L);
   Core6.f204(m, l6, 99785L, 6L, l0, l1);
   if ((b[((int) l6) - 58912] & 0xff) == 1) { break L2; }
   Words.put64(b, ((int) l6) - 58896, 0L);
   Words.put64(b, ((int) l6) - 58904, 0L);
   Words.put64(b, ((int) l6) - 58912, 0L);
   Core6.f204(m, l6, 99791L, 6L, l0, l1);
   if ((b[((int) l6) - 58912] & 0xff) == 1) { break L2; }
   Words.put64(b, ((int) l6) - 58896, 0L);
   Words.put64(b, ((int) l6) - 58904, 0L);
   Words.put64(b, ((int) l6) - 58912, 0L);
   Core6.f204(m, l6, 99797L, 6L, l0, l1);
   if ((b[((int) l6) - 58912] & 0xff) == 1) { break L2; }
   l8 = 1;
   if (Core7.f223(m, l4, l5) != 0) { break L2; }
   Words.put64(b, ((int) l6) - 58880, 0L);
   Words.put64(b, ((int) l6) - 58888, 0L);
   Words.put64(b, ((int) l6) - 58896, 0L);
   Words.put64(b, ((int) l6) - 58904, 0L);
   Words.put64(b, ((int) l6) - 58912, 0L);
   Core6.f193(m, l6, l4, l5);
   l8 = 0;
   if ((b[((int) l6) - 58912] & 0xff) != 1) { break L2; }
   if ((l2 = Words.get64(b, ((int) l6) - 58896)) == 0L) { break L2; }
   l9 = (l10 = (int) b[((int) (l3 = Words.get64(b, ((int) l6) - 58904))) - 58912]) & 255;
   L12: {
    if (l10 > -1) { break L12; }
    l11 = (b[((int) l3) - 58911] & 0xff) & 63;
    L13: {
     if (l10 + Integer.MIN_VALUE > 2147483615) { break L13; }
     l9 = ((l9 << 6) & 1984) | l11;
     break L12;
    }
    l12 = (b[((int) l3) - 58910] & 0xff) & 63;
    L14: {
     if (l10 + Integer.MIN_VALUE > 2147483631) { break L14; }
     l9 = ((l11 << 6) | ((l9 << 12) & 61440)) | l12;
     break L12;
    }
    l9 = ((l12 << 6) | ((l11 << 12) | ((l9 << 18) & 1835008))) | ((b[((int) l3) - 58909] & 0xff) & 63);
   }
   if ((l9 + -19968) + Integer.MIN_VALUE > -2147462657) { break L2; }
   Words.put64(b, ((int) l6) - 58856, 0L);
   Words.put64(b, ((int) l6) - 58864, 0L);
   Words.put64(b, ((int) l6) - 58872, 0L);
   Core6.f197(m, l6 + 40L, 99808L, 9L, l3, l2);
   if ((b[((int) l6) - 58872] & 0xff) == 1) { break L2; }
   Words.put64(b, ((int) l6) - 58856, 0L);
   Words.put64(b, ((int) l6) - 58864, 0L);
   Words.put64(b, ((int) l6) - 58872, 0L);
   Core6.f197(m, l6 + 40L, 99817L, 9L, l3, l2);
   if ((b[((int) l6) - 58872] & 0xff) == 1) { break L2; }
   l8 = (l9 = (int) b[((int) l3) - 58912]) & 255;
   L15: {
    if (l9 > -1) { break L15; }
    l10 = (b[((int) l3) - 58911] & 0xff) & 63;
    L16: {
     if (l9 + Integer.MIN_VALUE > 2147483615) { break L16; }
     l8 = ((l8 << 6) & 1984) | l10;
     break L15;
    }
    l11 = (b[((int) l3) - 58910] & 0xff) & 63;
    L17: {
     if (l9 + Integer.MIN_VALUE > 2147483631) { break L17; }
     l8 = ((l10 << 6) | ((l8 << 12) & 61440)) | l11;
     break L15;
    }
    l8 = ((l11 << 6) | ((l10 << 12) | ((l8 << 18) & 1835008))) | ((b[((int) l3) - 58909] & 0xff) & 63);
   }
   l8 = (l8 != 21495) ? 1 : 0;
  }
  m.g0 = l6 + 64L;
  final int t18 = l8;
  return t18;
 }
 throw State.trap();
}

static void f299(State m, long l0, long l1, long l2, long l3, long l4, long l5) {
 final byte[] b = m.bytes;
 long l6 = 0;
 long l7 = 0;
 long l8 = 0;
 int l9 = 0;
 int l10 = 0;
 int l11 = 0;
 int l12 = 0;
 m.g0 = l6 = m.g0 - 16L;
 b[((int) (l7 = l6)) - 58898] = (byte) (b[((int) l1) - 58910] & 0xff);
 Words.put16(b, ((int) l7) - 58900, (short) (Words.get16(b, ((int) l1) - 58912) & 0xffff));
 L1: {
  if (l7 < 16L) { break L1; }
  l1 = l4;
  l8 = l5;
  L2: {
   L3: {
    L4: while (true) {
     if (l8 == 0L) { break L3; }
     l10 = (l9 = (int) b[((int) l1) - 58912]) & 255;
     l6 = 1L;
     L5: {
      if (l9 > -1) { break L5; }
      l11 = (b[((int) l1) - 58911] & 0xff) & 63;
      L6: {
       if (l9 + Integer.MIN_VALUE > 2147483615) { break L6; }
       l10 = ((l10 << 6) & 1984) | l11;
       l6 = 2L;
       break L5;
      }
      l12 = (b[((int) l1) - 58910] & 0xff) & 63;
      L7: {
       if (l9 + Integer.MIN_VALUE > 2147483631) { break L7; }
       l10 = ((l11 << 6) | ((l10 << 12) & 61440)) | l12;
       l6 = 3L;
       break L5;
      }
      l10 = ((l12 << 6) | ((l11 << 12) | ((l10 << 18) & 1835008))) | ((b[((int) l1) - 58909] & 0xff) & 63);
      l6 = 4L;
     }
     L8: {
      if ((l10 + -48) + Integer.MIN_VALUE < -2147483638) { break L8; }
      l8 = l8 - l6;
      l1 = l1 + l6;
      if ((l10 + -65296) + Integer.MIN_VALUE > -2147483639) { continue L4; }
     }
     break L4;
    }
    f301(m, l0, l7 + 12L, l2, l3, l4, l5);
    break L2;
   }
   Core2.f53(m, l0, l4, l5);
  }
  m.g0 = l7 + 16L;
  return;
 }
 throw State.trap();
}

static int f300(State m, long l0, long l1) {
 final byte[] b = m.bytes;
 long l2 = 0;
 int l3 = 0;
 int l4 = 0;
 int l5 = 0;
 int l6 = 0;
 m.g0 = l2 = m.g0 - 64L;
 L1: {
  if ((l2 = l2) < 16L) { break L1; }
  Words.put64(b, ((int) l2) - 58880, 0L);
  Words.put64(b, ((int) l2) - 58888, 0L);
  Words.put64(b, ((int) l2) - 58896, 0L);
  Words.put64(b, ((int) l2) - 58904, 0L);
  Words.put64(b, ((int) l2) - 58912, 0L);
  Core6.f193(m, l2, l0, l1);
  l3 = 1;
  L2: {
   L3: {
    if ((b[((int) l2) - 58912] & 0xff) != 1) { break L3; }
    l1 = Words.get64(b, ((int) l2) - 58896);
    l0 = Words.get64(b, ((int) l2) - 58904);
    Words.put64(b, ((int) l2) - 58856, 0L);
    Words.put64(b, ((int) l2) - 58864, 0L);
    Words.put64(b, ((int) l2) - 58872, 0L);
    Core6.f197(m, l2 + 40L, 99808L, 9L, l0, l1);
    if ((b[((int) l2) - 58872] & 0xff) == 1) { break L2; }
    Words.put64(b, ((int) l2) - 58856, 0L);
    Words.put64(b, ((int) l2) - 58864, 0L);
    Words.put64(b, ((int) l2) - 58872, 0L);
    Core6.f197(m, l2 + 40L, 99817L, 9L, l0, l1);
    l3 = ((b[((int) l2) - 58872] & 0xff) == 1) ? 1 : 0;
    break L2;
   }
   l3 = 0;
   if (l1 == 0L) { break L2; }
   if ((l4 = (int) b[((int) l0) - 58912]) > -1) { break L2; }
   if (l4 + Integer.MIN_VALUE < 2147483616) { break L2; }
   l3 = l4 & 255;
   l5 = (b[((int) l0) - 58911] & 0xff) & 63;
   l6 = (b[((int) l0) - 58910] & 0xff) & 63;
   L4: {
    L5: {
     if (l4 + Integer.MIN_VALUE > 2147483631) { break L5; }
     l3 = ((l5 << 6) | ((l3 << 12) & 61440)) | l6;
     break L4;
    }
    l3 = ((l6 << 6) | ((l5 << 12) | ((l3 << 18) & 1835008))) | ((b[((int) l0) - 58909] & 0xff) & 63);
   }
   l3 = (l3 == 24230) ? 1 : 0;
  }
  m.g0 = l2 + 64L;
  final int t6 = l3;
  return t6;
 }
 throw State.trap();
}

static void f301(State m, long l0, long l1, long l2, long l3, long l4, long l5) {
 final byte[] b = m.bytes;
 long l6 = 0;
 long l7 = 0;
 long l8 = 0;
 long l9 = 0;
 int l10 = 0;
 int l11 = 0;
 int l12 = 0;
 int l13 = 0;
 int l14 = 0;
 m.g0 = l6 = m.g0 - 16L;
 b[((int) (l7 = l6)) - 58910] = (byte) (b[((int) l1) - 58910] & 0xff);
 Words.put16(b, ((int) l7) - 58912, (short) (Words.get16(b, ((int) l1) - 58912) & 0xffff));
 L1: {
  if (l7 < 16L) { break L1; }
  l6 = l4;
  l8 = l5;
  L2: {
   L3: {
    L4: while (true) {
     if (l8 == 0L) { break L3; }
     l11 = (l10 = (int) b[((int) l6) - 58912]) & 255;
     l9 = 1L;
     L5: {
      if (l10 > -1) { break L5; }
      l12 = (b[((int) l6) - 58911] & 0xff) & 63;
      L6: {
       if (l10 + Integer.MIN_VALUE > 2147483615) { break L6; }
       l11 = ((l11 << 6) & 1984) | l12;
       l9 = 2L;
       break L5;
      }
      l13 = (b[((int) l6) - 58910] & 0xff) & 63;
      L7: {
       if (l10 + Integer.MIN_VALUE > 2147483631) { break L7; }
       l11 = ((l12 << 6) | ((l11 << 12) & 61440)) | l13;
       l9 = 3L;
       break L5;
      }
      l11 = ((l13 << 6) | ((l12 << 12) | ((l11 << 18) & 1835008))) | ((b[((int) l6) - 58909] & 0xff) & 63);
      l9 = 4L;
     }
     L8: {
      if (l11 == 37) { break L8; }
      if (l11 == 65285) { break L8; }
      l8 = l8 - l9;
      l6 = l6 + l9;
      if (l11 != 8240) { continue L4; }
     }
     break L4;
    }
    l6 = l4;
    l8 = l5;
    L9: {
     L10: while (true) {
      if (l8 == 0L) { break L9; }
      l11 = (l10 = (int) b[((int) l6) - 58912]) & 255;
      l9 = 1L;
      L11: {
       if (l10 > -1) { break L11; }
       l12 = (b[((int) l6) - 58911] & 0xff) & 63;
       L12: {
        if (l10 + Integer.MIN_VALUE > 2147483615) { break L12; }
        l11 = ((l11 << 6) & 1984) | l12;
        l9 = 2L;
        break L11;
       }
       l13 = (b[((int) l6) - 58910] & 0xff) & 63;
       L13: {
        if (l10 + Integer.MIN_VALUE > 2147483631) { break L13; }
        l11 = ((l12 << 6) | ((l11 << 12) & 61440)) | l13;
        l9 = 3L;
        break L11;
       }
       l11 = ((l13 << 6) | ((l12 << 12) | ((l11 << 18) & 1835008))) | ((b[((int) l6) - 58909] & 0xff) & 63);
       l9 = 4L;
      }
      l8 = l8 - l9;
      l6 = l6 + l9;
      if (l11 != 8240) { continue L10; }
      break L10;
     }
     b[((int) l7) - 58906] = (byte) (b[((int) l1) - 58910] & 0xff);
     Words.put16(b, ((int) l7) - 58908, (short) (Words.get16(b, ((int) l1) - 58912) & 0xffff));
     Core2.f53(m, l0, 99487L, 9L);
     f304(m, l0, l7 + 4L, 32, l4, l5);
     break L2;
    }
    b[((int) l7) - 58902] = (byte) (b[((int) l1) - 58910] & 0xff);
    Words.put16(b, ((int) l7) - 58904, (short) (Words.get16(b, ((int) l1) - 58912) & 0xffff));
    Core2.f53(m, l0, 99496L, 9L);
    l9 = l4;
    l1 = l5;
    L14: {
     L15: while (true) {
      l6 = l9;
      if ((l12 = ((l8 = l1) == 0L) ? 1 : 0) != 0) { break L14; }
      l11 = (l10 = (int) b[((int) l6) - 58912]) & 255;
      l9 = 1L;
      L16: {
       if (l10 > -1) { break L16; }
       l13 = (b[((int) l6) - 58911] & 0xff) & 63;
       L17: {
        if (l10 + Integer.MIN_VALUE > 2147483615) { break L17; }
        l11 = ((l11 << 6) & 1984) | l13;
        l9 = 2L;
        break L16;
       }
       l14 = (b[((int) l6) - 58910] & 0xff) & 63;
       L18: {
        if (l10 + Integer.MIN_VALUE > 2147483631) { break L18; }
        l11 = ((l13 << 6) | ((l11 << 12) & 61440)) | l14;
        l9 = 3L;
        break L16;
       }
       l11 = ((l14 << 6) | ((l13 << 12) | ((l11 << 18) & 1835008))) | ((b[((int) l6) - 58909] & 0xff) & 63);
       l9 = 4L;
      }
      l1 = l8 - l9;
      l9 = l6 + l9;
      if ((l11 + -48) + Integer.MIN_VALUE < -2147483638) { continue L15; }
      if ((l11 + -65296) + Integer.MIN_VALUE < -2147483638) { continue L15; }
      break L15;
     }
    }
    L19: {
     if (Core6.f199(m, 100, l4, l9 = l5 - l8) == 0) { break L19; }
     l11 = Core6.f199(m, 99, l4, l9);
     if (l12 != 0) { break L19; }
     if (l11 != 0) { break L19; }
     l10 = (l11 = (int) b[((int) l6) - 58912]) & 255;
     L20: {
      L21: {
       L22: {
        L23: {
         if (l11 > -1) { break L23; }
         l12 = (b[((int) l6) - 58911] & 0xff) & 63;
         L24: {
          if (l11 + Integer.MIN_VALUE < 2147483616) { break L24; }
          l13 = (b[((int) l6) - 58910] & 0xff) & 63;
          L25: {
           L26: {
            if (l11 + Integer.MIN_VALUE > 2147483631) { break L26; }
            l14 = ((l12 << 6) | ((l10 << 12) & 61440)) | l13;
            break L25;
           }
           l14 = ((l13 << 6) | ((l12 << 12) | ((l10 << 18) & 1835008))) | ((b[((int) l6) - 58909] & 0xff) & 63);
          }
          if (l14 != 32) { break L21; }
          l9 = (l11 + Integer.MIN_VALUE < 2147483632) ? 3L : 4L;
          break L22;
         }
         if ((l10 = ((l10 << 6) & 1984) | l12) != 32) { break L20; }
         l9 = 2L;
         break L22;
        }
        if (l11 != 32) { break L20; }
        l9 = 1L;
       }
       if (l8 == l9) { break L19; }
       l10 = (l11 = (int) b[((int) (l6 = l6 + l9)) - 58912]) & 255;
       if (l11 > -1) { break L20; }
       l12 = (b[((int) l6) - 58911] & 0xff) & 63;
       L27: {
        if (l11 + Integer.MIN_VALUE > 2147483615) { break L27; }
        l10 = ((l10 << 6) & 1984) | l12;
        break L20;
       }
       l13 = (b[((int) l6) - 58910] & 0xff) & 63;
      }
      L28: {
       if (l11 + Integer.MIN_VALUE > 2147483631) { break L28; }
       l10 = ((l12 << 6) | l13) | ((l10 << 12) & 61440);
       break L20;
      }
      l10 = (((l12 << 12) | (l13 << 6)) | ((l10 << 18) & 1835008)) | ((b[((int) l6) - 58909] & 0xff) & 63);
     }
     L29: {
      if (l10 == 65285) { break L29; }
      if (l10 != 37) { break L19; }
     }
     Words.put32(b, ((int) l7) - 58900, 12491239);
     Core2.f53(m, l0, l7 + 12L, 3L);
     break L2;
    }
    f304(m, l0, l7 + 8L, 32, l4, l5);
    break L2;
   }
   l11 = 32;
   L30: {
    if (l3 == 0L) { break L30; }
    if (((int) b[((int) ((l6 = l2 + l3) + -1L)) - 58912]) > -1) { break L30; }
    l9 = -2L;
    L31: {
     if ((b[((int) (l6 + -2L)) - 58912] & 0xff) + Integer.MIN_VALUE > -2147483457) { break L31; }
     l9 = ((b[((int) (l6 + -3L)) - 58912] & 0xff) + Integer.MIN_VALUE > -2147483457) ? -3L : -4L;
    }
    if ((l10 = (int) b[((int) (l6 = (l2 + l9) + l3)) - 58912]) > -1) { break L30; }
    if (l10 + Integer.MIN_VALUE < 2147483616) { break L30; }
    l11 = l10 & 255;
    l12 = (b[((int) l6) - 58911] & 0xff) & 63;
    l13 = (b[((int) l6) - 58910] & 0xff) & 63;
    L32: {
     L33: {
      if (l10 + Integer.MIN_VALUE > 2147483631) { break L33; }
      l11 = ((l12 << 6) | ((l11 << 12) & 61440)) | l13;
      break L32;
     }
     l11 = ((l13 << 6) | ((l12 << 12) | ((l11 << 18) & 1835008))) | ((b[((int) l6) - 58909] & 0xff) & 63);
    }
    l11 = (l11 == 31532) ? 31532 : 32;
   }
   f304(m, l0, l7, l11, l4, l5);
  }
  m.g0 = l7 + 16L;
  return;
 }
 throw State.trap();
}

static int f302(State m, int l0, int l1) {
 L1: {
  L2: {
   if (m.g0 < 16L) { break L2; }
   if ((l0 & 255) == 1) { break L1; }
   L3: {
    L4: {
     L5: {
      L6: {
       L7: {
        L8: {
         L9: {
          L10: {
           L11: {
            L12: {
             L13: {
              L14: {
               L15: {
                L16: {
                 if (l1 > 26463) { break L16; }
                 L17: {
                  if (l1 > 21494) { break L17; }
                  L18: {
                   if (l1 > 20856) { break L18; }
                   if (l1 == 20004) { break L15; }
                   if (l1 != 20110) { break L1; }
                   return 26044;
                  }
                  if (l1 == 20857) { break L10; }
                  if (l1 != 21326) { break L1; }
                  return 33775;
                 }
                 L19: {
                  if (l1 > 23571) { break L19; }
                  if (l1 == 21495) { break L8; }
                  if (l1 != 21544) { break L1; }
                  return 22136;
                 }
                 if (l1 == 23572) { break L4; }
                 if (l1 == 25668) { break L13; }
                 if (l1 != 26102) { break L1; }
                 return 26178;
                }
                L20: {
                 if (l1 > 36124) { break L20; }
                 L21: {
                  if (l1 > 32421) { break L21; }
                  if (l1 == 26464) { break L7; }
                  if (l1 == 27431) { break L9; }
                  l0 = 40670;
                  if (l1 == 28857) { break L3; }
                  break L1;
                 }
                 switch (l1 + -32422) {
                 case 0: break L6;
                 case 13: break L11;
                 default: break L1;
                 }
                }
                L22: {
                 switch (l1 + -36125) {
                 case 0: break L5;
                 case 1: break L1;
                 case 2: break L14;
                 default: break L22;
                 }
                }
                if (l1 == 38047) { break L12; }
                if (l1 != 38225) { break L1; }
                return 37770;
               }
               return 20841;
              }
              return 36000;
             }
             return 25885;
            }
            return 37912;
           }
           return 32013;
          }
          return 33586;
         }
         return 27472;
        }
        return 34399;
       }
       return 27091;
      }
      return 32004;
     }
     return 35997;
    }
    l0 = 29246;
   }
   final int t23 = l0;
   return t23;
  }
  throw State.trap();
 }
 return l1;
}

static void f303(State m, long l0, long l1, int l2) {
 final byte[] b = m.bytes;
 long l3 = 0;
 int l4 = 0;
 int l5 = 0;
 m.g0 = l3 = m.g0 - 256L;
 L1: {
  if ((l3 = l3) < 16L) { break L1; }
  l4 = b[((int) l1) - 58911] & 0xff;
  l5 = b[((int) l1) - 58912] & 0xff;
  L2: {
   L3: {
    if (((l2 + -1) & 65535) + Integer.MIN_VALUE > -2147483640) { break L3; }
    f295(m, l0, l5, 99478L, 3L);
    m.fill((int) (l3 + 5L), 0, (int) 235L);
    Words.put32(b, ((int) l3) - 58670, 0);
    b[((int) l3) - 58671] = (byte) 1;
    b[((int) l3) - 58672] = (byte) l5;
    Words.put16(b, ((int) l3) - 58666, (short) 0);
    Words.put64(b, ((int) l3) - 58664, ((l5 & 255) != 0) ? 69676L : 69244L);
    Core2.f53(m, l0, (l3 + 5L) + (l1 = Core2.f49(m, l3 + 5L, l3 + 240L, l4, 0, (l2 & 0xffffffffL) & 65535L, 0L)), 235L - l1);
    break L2;
   }
   m.fill((int) (l3 + 5L), 0, (int) 235L);
   Words.put32(b, ((int) l3) - 58670, 0);
   b[((int) l3) - 58671] = (byte) 1;
   Words.put16(b, ((int) l3) - 58666, (short) 0);
   b[((int) l3) - 58672] = (byte) l5;
   Words.put64(b, ((int) l3) - 58664, ((l5 & 255) != 0) ? 69676L : 69244L);
   Core2.f53(m, l0, (l3 + 5L) + (l1 = Core2.f49(m, l3 + 5L, l3 + 240L, l4, 0, (l2 & 0xffffffffL) & 65535L, 0L)), 235L - l1);
  }
  m.g0 = l3 + 256L;
  return;
 }
 throw State.trap();
}

static void f304(State m, long l0, long l1, int l2, long l3, long l4) {
 final byte[] b = m.bytes;
 long l5 = 0;
 long l6 = 0;
 long l7 = 0;
 long l8 = 0;
 long l9 = 0;
 long l10 = 0;
 long l11 = 0;
 long l12 = 0;
 long l13 = 0;
 int l14 = 0;
 int l15 = 0;
 int l16 = 0;
 int l17 = 0;
 int l18 = 0;
 int l19 = 0;
 int l20 = 0;
 int l21 = 0;
 int l22 = 0;
 m.g0 = l5 = m.g0 - 272L;
 L1: {
  if ((l6 = l5) < 16L) { break L1; }
  L2: {
   if (l4 == 0L) { break L2; }
   l14 = b[((int) l1) - 58911] & 0xff;
   l7 = (((l15 = b[((int) l1) - 58912] & 0xff) & 255) != 0) ? 69676L : 69244L;
   l8 = (l6 + 256L) | 2L;
   L3: while (true) {
    l16 = l2;
    l9 = l4;
    l2 = (l17 = (int) b[((int) l3) - 58912]) & 255;
    l10 = 1L;
    L4: {
     if (l17 > -1) { break L4; }
     l18 = (b[((int) l3) - 58911] & 0xff) & 63;
     L5: {
      if (l17 + Integer.MIN_VALUE > 2147483615) { break L5; }
      l2 = ((l2 << 6) & 1984) | l18;
      l10 = 2L;
      break L4;
     }
     l19 = (b[((int) l3) - 58910] & 0xff) & 63;
     L6: {
      if (l17 + Integer.MIN_VALUE > 2147483631) { break L6; }
      l2 = ((l18 << 6) | ((l2 << 12) & 61440)) | l19;
      l10 = 3L;
      break L4;
     }
     l2 = ((l19 << 6) | ((l18 << 12) | ((l2 << 18) & 1835008))) | ((b[((int) l3) - 58909] & 0xff) & 63);
     l10 = 4L;
    }
    l4 = l9 - l10;
    L7: {
     L8: {
      L9: {
       L10: {
        L11: {
         L12: {
          if ((l2 + -48) + Integer.MIN_VALUE < -2147483638) { break L12; }
          if ((l2 + -65296) + Integer.MIN_VALUE < -2147483638) { break L12; }
          L13: {
           switch (l2 + -32) {
           case 0: case 5: break L7;
           case 1: case 2: case 3: case 4: case 6: case 7: case 8: case 9: case 10: case 11: case 13: break L10;
           case 12: case 14: break L12;
           default: break L13;
           }
          }
          switch (l2 + -65285) {
          case 0: break L7;
          case 1: case 2: case 3: case 4: case 5: case 6: case 8: break L10;
          case 7: case 9: break L12;
          default: break L11;
          }
         }
         if ((l16 + -48) + Integer.MIN_VALUE < -2147483638) { break L7; }
         if ((l16 + -65296) + Integer.MIN_VALUE < -2147483638) { break L7; }
         L14: {
          L15: {
           switch (l16 + -44) {
           case 0: case 2: break L7;
           case 1: break L14;
           default: break L15;
           }
          }
          switch (l16 + -65292) {
          case 0: case 2: break L7;
          default: break L14;
          }
         }
         l11 = l9;
         l1 = l3;
         L16: while (true) {
          l18 = (l19 = (int) b[((int) l1) - 58912]) & 255;
          l5 = 1L;
          L17: {
           if (l19 > -1) { break L17; }
           l20 = (b[((int) l1) - 58911] & 0xff) & 63;
           L18: {
            if (l19 + Integer.MIN_VALUE > 2147483615) { break L18; }
            l18 = ((l18 << 6) & 1984) | l20;
            l5 = 2L;
            break L17;
           }
           l21 = (b[((int) l1) - 58910] & 0xff) & 63;
           L19: {
            if (l19 + Integer.MIN_VALUE > 2147483631) { break L19; }
            l18 = ((l20 << 6) | ((l18 << 12) & 61440)) | l21;
            l5 = 3L;
            break L17;
           }
           l18 = ((l21 << 6) | ((l20 << 12) | ((l18 << 18) & 1835008))) | ((b[((int) l1) - 58909] & 0xff) & 63);
           l5 = 4L;
          }
          L20: {
           L21: {
            if ((l18 + -48) + Integer.MIN_VALUE < -2147483638) { break L21; }
            if ((l18 + -65296) + Integer.MIN_VALUE < -2147483638) { break L21; }
            if (l18 == 65292) { break L21; }
            if (l18 == 44) { break L21; }
            l12 = l11;
            break L20;
           }
           l1 = l1 + l5;
           l12 = 0L;
           if ((l11 = l11 - l5) != 0L) { continue L16; }
          }
          break L16;
         }
         l18 = 1;
         L22: {
          L23: {
           L24: {
            if (l16 > 20739) { break L24; }
            if (l16 == 19975) { break L22; }
            if (l16 != 20159) { break L23; }
            break L22;
           }
           if (l16 == 20740) { break L22; }
           if (l16 == 33836) { break L22; }
          }
          l18 = 0;
         }
         L25: {
          if ((l19 = ((l9 = l9 - l12) == 0L) ? 1 : 0) != 0) { break L25; }
          if (l18 == 0) { break L25; }
          L26: {
           L27: {
            if (l17 > -1) { break L27; }
            final long t28 = l9;
            final long t29 = (l17 + Integer.MIN_VALUE < 2147483632) ? 3L : 4L;
            final int t30 = (l17 + Integer.MIN_VALUE < 2147483616) ? 1 : 0;
            if (t28 != (l5 = t30 != 0 ? 2L : t29)) { break L26; }
            break L25;
           }
           l5 = 1L;
           if (l9 == 1L) { break L25; }
          }
          L31: {
           L32: {
            if ((l18 = (int) b[((int) (l13 = l3 + l5)) - 58912]) <= -1) { break L32; }
            l11 = 1L;
            break L31;
           }
           L33: {
            if (l18 + Integer.MIN_VALUE >= 2147483616) { break L33; }
            l11 = 2L;
            break L31;
           }
           l11 = (l18 + Integer.MIN_VALUE < 2147483632) ? 3L : 4L;
          }
          L34: {
           if (l9 == (l5 = l11 + l5)) { break L34; }
           L35: {
            L36: {
             if ((l18 = (int) b[((int) (l13 + l11)) - 58912]) <= -1) { break L36; }
             l11 = 1L;
             break L35;
            }
            L37: {
             if (l18 + Integer.MIN_VALUE >= 2147483616) { break L37; }
             l11 = 2L;
             break L35;
            }
            l11 = (l18 + Integer.MIN_VALUE < 2147483632) ? 3L : 4L;
           }
           if (l9 != (l11 + l5)) { break L25; }
          }
          Words.put32(b, ((int) l6) - 58896, 11967465);
          Core2.f53(m, l0, l6 + 16L, 3L);
         }
         l5 = l1;
         l18 = 1;
         if (l12 == 0L) { break L8; }
         L38: {
          L39: {
           L40: {
            if ((l18 = (int) b[((int) l1) - 58912]) > -1) { break L40; }
            l17 = l18 & 255;
            l20 = (b[((int) l1) - 58911] & 0xff) & 63;
            L41: {
             if (l18 + Integer.MIN_VALUE < 2147483616) { break L41; }
             l21 = (b[((int) l1) - 58910] & 0xff) & 63;
             L42: {
              L43: {
               if (l18 + Integer.MIN_VALUE > 2147483631) { break L43; }
               l17 = ((l20 << 6) | ((l17 << 12) & 61440)) | l21;
               break L42;
              }
              l17 = ((l21 << 6) | ((l20 << 12) | ((l17 << 18) & 1835008))) | ((b[((int) l1) - 58909] & 0xff) & 63);
             }
             if (l17 == 32) { break L39; }
             break L9;
            }
            if ((((l17 << 6) & 1984) | l20) != 32) { break L9; }
            l5 = 2L;
            break L38;
           }
           if (l18 != 32) { break L9; }
           l5 = 1L;
           break L38;
          }
          l5 = (l18 + Integer.MIN_VALUE < 2147483632) ? 3L : 4L;
         }
         l18 = (l12 == l5) ? 1 : 0;
         l5 = l1 + l5;
         break L8;
        }
        if (l2 == 8240) { break L7; }
       }
       Words.put32(b, ((int) l6) - 58896, 0);
       L44: {
        L45: {
         if (l2 + Integer.MIN_VALUE > -2147483521) { break L45; }
         b[((int) l6) - 58896] = (byte) l2;
         l1 = 1L;
         break L44;
        }
        L46: {
         if (l2 + Integer.MIN_VALUE > -2147481601) { break L46; }
         b[((int) l6) - 58895] = (byte) ((l2 & 63) | 128);
         b[((int) l6) - 58896] = (byte) ((l2 >>> 6) | 192);
         l1 = 2L;
         break L44;
        }
        L47: {
         if (l2 + Integer.MIN_VALUE > -2147418113) { break L47; }
         b[((int) l6) - 58894] = (byte) ((l2 & 63) | 128);
         b[((int) l6) - 58896] = (byte) ((l2 >>> 12) | 224);
         b[((int) l6) - 58895] = (byte) (((l2 >>> 6) & 63) | 128);
         l1 = 3L;
         break L44;
        }
        b[((int) l6) - 58893] = (byte) ((l2 & 63) | 128);
        b[((int) l6) - 58896] = (byte) ((l2 >>> 18) | 240);
        b[((int) l6) - 58894] = (byte) (((l2 >>> 6) & 63) | 128);
        b[((int) l6) - 58895] = (byte) (((l2 >>> 12) & 63) | 128);
        l1 = 4L;
       }
       Core2.f53(m, l0, l6 + 16L, l1);
       break L7;
      }
      l18 = 0;
      l5 = l1;
     }
     Core6.f201(m, l6, l3, l9);
     L48: {
      L49: {
       L50: {
        L51: {
         L52: {
          if ((b[((int) l6) - 58912] & 0xff) != 1) { break L52; }
          l11 = Words.get64(b, ((int) l6) - 58904);
          m.fill((int) (l6 + 16L), 0, (int) 235L);
          Words.put32(b, ((int) l8) - 58912, 0);
          Words.put16(b, ((int) l8) - 58908, (short) 0);
          b[((int) l6) - 58655] = (byte) 1;
          b[((int) l6) - 58656] = (byte) l15;
          Words.put64(b, ((int) l6) - 58648, l7);
          l13 = 235L - (l11 = Core2.f49(m, l6 + 16L, l6 + 256L, l14, 0, l11, 0L));
          l9 = (l6 + 16L) + l11;
          if (l11 == 235L) { break L50; }
          if ((l19 = (int) b[((int) l9) - 58912]) > -1) { break L50; }
          if (l19 + Integer.MIN_VALUE < 2147483616) { break L50; }
          l17 = l19 & 255;
          l20 = (b[((int) l9) - 58911] & 0xff) & 63;
          l21 = (b[((int) l9) - 58910] & 0xff) & 63;
          L53: {
           L54: {
            if (l19 + Integer.MIN_VALUE > 2147483631) { break L54; }
            l17 = ((l20 << 6) | ((l17 << 12) & 61440)) | l21;
            break L53;
           }
           l17 = ((l21 << 6) | ((l20 << 12) | ((l17 << 18) & 1835008))) | ((b[((int) l9) - 58909] & 0xff) & 63);
          }
          if (l17 != 20108) { break L50; }
          L55: {
           if (l13 == (l11 = (l19 + Integer.MIN_VALUE < 2147483632) ? 3L : 4L)) { break L55; }
           l17 = (l20 = (int) b[((int) (l9 + l11)) - 58912]) & 255;
           L56: {
            if (l20 > -1) { break L56; }
            l21 = (b[((int) (l9 + (((l22 = (l19 + Integer.MIN_VALUE < 2147483632) ? 1 : 0) != 0) ? 4L : 5L))) - 58912] & 0xff) & 63;
            L57: {
             if (l20 + Integer.MIN_VALUE > 2147483615) { break L57; }
             l17 = ((l17 << 6) & 1984) | l21;
             break L56;
            }
            l22 = (b[((int) (l9 + (l22 != 0 ? 5L : 6L))) - 58912] & 0xff) & 63;
            L58: {
             if (l20 + Integer.MIN_VALUE > 2147483631) { break L58; }
             l17 = ((l21 << 6) | ((l17 << 12) & 61440)) | l22;
             break L56;
            }
            l17 = ((l22 << 6) | ((l21 << 12) | ((l17 << 18) & 1835008))) | ((b[((int) (l9 + ((l19 + Integer.MIN_VALUE < 2147483632) ? 6L : 7L))) - 58912] & 0xff) & 63);
           }
           L59: {
            if (l17 > 20739) { break L59; }
            if (l17 == 19975) { break L51; }
            if (l17 != 20159) { break L55; }
            break L51;
           }
           if (l17 == 20740) { break L51; }
           if (l17 == 21315) { break L51; }
           if (l17 == 33836) { break L51; }
          }
          if ((l18 | ((l13 != l11) ? 1 : 0)) != 0) { break L50; }
          l18 = (l19 = (int) b[((int) l5) - 58912]) & 255;
          L60: {
           if (l19 > -1) { break L60; }
           l17 = (b[((int) l5) - 58911] & 0xff) & 63;
           L61: {
            if (l19 + Integer.MIN_VALUE > 2147483615) { break L61; }
            l18 = ((l18 << 6) & 1984) | l17;
            break L60;
           }
           l20 = (b[((int) l5) - 58910] & 0xff) & 63;
           L62: {
            if (l19 + Integer.MIN_VALUE > 2147483631) { break L62; }
            l18 = ((l17 << 6) | ((l18 << 12) & 61440)) | l20;
            break L60;
           }
           l18 = ((l20 << 6) | ((l17 << 12) | ((l18 << 18) & 1835008))) | ((b[((int) l5) - 58909] & 0xff) & 63);
          }
          l19 = 1;
          L63: {
           L64: {
            L65: {
             if (l18 > 20739) { break L65; }
             if (l18 == 19975) { break L63; }
             if (l18 != 20159) { break L64; }
             break L63;
            }
            if (l18 == 20740) { break L63; }
            if (l18 == 21315) { break L63; }
            if (l18 == 33836) { break L63; }
           }
           l19 = 0;
          }
          if (l16 == 31532) { break L50; }
          if (l19 == 0) { break L50; }
          break L49;
         }
         if (l19 != 0) { break L48; }
         l5 = l3;
         L66: while (true) {
          l18 = (l19 = (int) b[((int) l5) - 58912]) & 255;
          l11 = 1L;
          L67: {
           if (l19 > -1) { break L67; }
           l16 = (b[((int) l5) - 58911] & 0xff) & 63;
           L68: {
            if (l19 + Integer.MIN_VALUE > 2147483615) { break L68; }
            l18 = ((l18 << 6) & 1984) | l16;
            l11 = 2L;
            break L67;
           }
           l17 = (b[((int) l5) - 58910] & 0xff) & 63;
           L69: {
            if (l19 + Integer.MIN_VALUE > 2147483631) { break L69; }
            l18 = ((l16 << 6) | ((l18 << 12) & 61440)) | l17;
            l11 = 3L;
            break L67;
           }
           l18 = ((l17 << 6) | ((l16 << 12) | ((l18 << 18) & 1835008))) | ((b[((int) l5) - 58909] & 0xff) & 63);
           l11 = 4L;
          }
          l9 = l9 - l11;
          L70: {
           if (l18 == 44) { break L70; }
           if (l18 == 65292) { break L70; }
           f293(m, l0, l15, l18);
          }
          l5 = l5 + l11;
          if (l9 != 0L) { continue L66; }
          break L48;
         }
        }
        if (l16 != 31532) { break L49; }
       }
       Core2.f53(m, l0, l9, l13);
       break L48;
      }
      f292(m, l0, l15, 20004);
      L71: {
       L72: {
        if ((l18 = (int) b[((int) l9) - 58912]) <= -1) { break L72; }
        l5 = 1L;
        break L71;
       }
       L73: {
        if (l18 + Integer.MIN_VALUE >= 2147483616) { break L73; }
        l5 = 2L;
        break L71;
       }
       l5 = (l18 + Integer.MIN_VALUE < 2147483632) ? 3L : 4L;
      }
      Core2.f53(m, l0, l9 + l5, l13 - l5);
     }
     Words.put64(b, ((int) l6) - 58872, 0L);
     Words.put64(b, ((int) l6) - 58880, 0L);
     Words.put64(b, ((int) l6) - 58888, 0L);
     Words.put64(b, ((int) l6) - 58896, 0L);
     Core6.f206(m, l6 + 16L, l1, l12);
     if ((l5 = Words.get64(b, ((int) l6) - 58888)) == 0L) { break L7; }
     L74: {
      L75: {
       if ((l18 = (int) b[((int) (l9 = Words.get64(b, ((int) l6) - 58896))) - 58912]) <= -1) { break L75; }
       l1 = 1L;
       break L74;
      }
      L76: {
       if (l18 + Integer.MIN_VALUE >= 2147483616) { break L76; }
       l1 = 2L;
       break L74;
      }
      l1 = (l18 + Integer.MIN_VALUE < 2147483632) ? 3L : 4L;
     }
     f292(m, l0, l15, 28857);
     if ((l11 = l5 - l1) == 0L) { break L7; }
     l1 = l9 + l1;
     L77: while (true) {
      l18 = (l19 = (int) b[((int) l1) - 58912]) & 255;
      l5 = 1L;
      L78: {
       if (l19 > -1) { break L78; }
       l16 = (b[((int) l1) - 58911] & 0xff) & 63;
       L79: {
        if (l19 + Integer.MIN_VALUE > 2147483615) { break L79; }
        l18 = ((l18 << 6) & 1984) | l16;
        l5 = 2L;
        break L78;
       }
       l17 = (b[((int) l1) - 58910] & 0xff) & 63;
       L80: {
        if (l19 + Integer.MIN_VALUE > 2147483631) { break L80; }
        l18 = ((l16 << 6) | ((l18 << 12) & 61440)) | l17;
        l5 = 3L;
        break L78;
       }
       l18 = ((l17 << 6) | ((l16 << 12) | ((l18 << 18) & 1835008))) | ((b[((int) l1) - 58909] & 0xff) & 63);
       l5 = 4L;
      }
      f293(m, l0, l15, l18);
      l1 = l1 + l5;
      if ((l11 = l11 - l5) != 0L) { continue L77; }
      break L77;
     }
    }
    l3 = l3 + l10;
    if (l4 != 0L) { continue L3; }
    break L3;
   }
  }
  m.g0 = l6 + 272L;
  return;
 }
 throw State.trap();
}

static void f306(State m) {
 L1: {
  if (m.g0 > 15L) { break L1; }
  throw State.trap();
 }
}

static int f308(State m, long l0, long l1, int l2, long l3) {
 final byte[] b = m.bytes;
 long l4 = 0;
 long l5 = 0;
 long l6 = 0;
 long l7 = 0;
 long l8 = 0;
 long l9 = 0;
 int l10 = 0;
 int l11 = 0;
 m.g0 = l4 = m.g0 - 640L;
 L1: {
  if ((l5 = l4) < 16L) { break L1; }
  m.fill((int) l3, 0, (int) 224L);
  L2: {
   L3: {
    if (l2 + Integer.MIN_VALUE <= -2147483643) { break L3; }
    l2 = 8;
    break L2;
   }
   l6 = l1;
   l4 = l0 = l0 + ((l0 == 0L) ? 4096L : 0L);
   L4: {
    L5: {
     L6: {
      if (l1 + Long.MIN_VALUE < -9223372036854775804L) { break L6; }
      l4 = l0;
      l6 = l1;
      L7: while (true) {
       if (((Words.get32(b, ((int) l4) - 58912) + 16776990) & 12632312) != 8421376) { break L5; }
       l4 = l4 + 3L;
       if ((l6 = l6 + -3L) + Long.MIN_VALUE > -9223372036854775805L) { continue L7; }
       break L7;
      }
     }
     if (l6 + Long.MIN_VALUE > -9223372036854775805L) { break L5; }
     L8: {
      switch ((int) l6) {
      case 1: case 2: break L5;
      case 3: break L8;
      default: break L4;
      }
     }
     if (((((Words.get16(b, ((int) l4) - 58912) & 0xffff) | ((b[((int) (l4 + 2L)) - 58912] & 0xff) << 16)) + 16776990) & 12632312) == 8421376) { break L4; }
    }
    if (Core1.f6(m, l0, l1) != 0) { break L4; }
    l2 = 5;
    break L2;
   }
   m.fill((int) (l5 + 16L), 0, (int) 224L);
   Core1.f7(m, l5 + 16L, (l2 + Integer.MIN_VALUE < -2147483642) ? l2 : 0, l0, l1);
   l10 = b[((int) l5) - 58888] & 0xff;
   l7 = Words.get64(b, ((int) l5) - 58896);
   m.copy((int) (l5 + 240L), (int) ((l5 + 16L) + 16L), (int) 208L);
   l8 = Words.get64(b, ((int) l5) - 58480);
   L9: {
    L10: {
     if (l7 + Long.MIN_VALUE >= -9223372036854775792L) { break L10; }
     l4 = 0L;
     l6 = l7;
     break L9;
    }
    Core1.f25(m, l5, l0, l1, l7);
    l6 = Words.get64(b, ((int) l5) - 58904);
    l4 = Words.get64(b, ((int) l5) - 58912);
   }
   L11: {
    if (l6 + Long.MIN_VALUE < -9223372036854775805L) { break L11; }
    L12: while (true) {
     if ((l1 - l4) + Long.MIN_VALUE < -9223372036854775800L) { break L11; }
     L13: {
      L14: {
       if (((l9 = Words.get64(b, ((int) (l0 + l4)) - 58912)) & 67553998437089520L) != 63050398541283552L) { break L14; }
       l6 = l6 + -3L;
       l4 = l4 + 9L;
       break L13;
      }
      if (l6 + Long.MIN_VALUE < -9223372036854775800L) { break L11; }
      if ((l9 & -9187201950435737472L) != 0L) { break L11; }
      l6 = l6 + -8L;
      l4 = l4 + 8L;
     }
     if (l6 + Long.MIN_VALUE > -9223372036854775806L) { continue L12; }
     break L12;
    }
   }
   L15: {
    if (l6 == 0L) { break L15; }
    if (l1 + Long.MIN_VALUE <= l4 + Long.MIN_VALUE) { break L15; }
    l6 = l6 + -1L;
    L16: while (true) {
     l4 = Words.get64(b, ((int) (((((b[((int) (l0 + l4)) - 58912] & 0xff) >>> 1) & 0xffffffffL) & 120L) + 66680L)) - 58912) + l4;
     if (l6 == 0L) { break L15; }
     l6 = l6 + -1L;
     if (l1 + Long.MIN_VALUE > l4 + Long.MIN_VALUE) { continue L16; }
     break L16;
    }
   }
   l6 = l3 + 28L;
   l11 = b[((int) l5) - 58472] & 0xff;
   l2 = 0;
   m.fill((int) (l5 + 448L), 0, (int) 192L);
   L17: {
    if (l8 == 0L) { break L17; }
    if ((l1 = l8 << 2L) == 0L) { break L17; }
    m.copy((int) (l5 + 448L), (int) (l5 + 240L), (int) l1);
   }
   Words.put32(b, ((int) l3) - 58888, (int) l8);
   Words.put32(b, ((int) l3) - 58892, l11);
   Words.put32(b, ((int) l3) - 58896, l10);
   Words.put64(b, ((int) l3) - 58904, l4);
   Words.put64(b, ((int) l3) - 58912, l7);
   m.copy((int) l6, (int) (l5 + 448L), (int) 192L);
   Words.put32(b, ((int) l3) - 58692, 0);
  }
  m.g0 = l5 + 640L;
  final int t18 = l2;
  return t18;
 }
 throw State.trap();
}

static int f310(State m, long l0, long l1, int l2, long l3) {
 final byte[] b = m.bytes;
 long l4 = 0;
 long l5 = 0;
 long l6 = 0;
 long l7 = 0;
 long l8 = 0;
 int l9 = 0;
 int l10 = 0;
 m.g0 = l4 = m.g0 - 48L;
 L1: {
  if ((l5 = l4) < 16L) { break L1; }
  Words.put64(b, ((int) l3) - 58912, 0L);
  Words.put64(b, ((int) l3) - 58904, 0L);
  Words.put64(b, ((int) l3) - 58896, 0L);
  Words.put64(b, ((int) l5) - 58872, 0L);
  Words.put64(b, ((int) l5) - 58880, 0L);
  Words.put64(b, ((int) l5) - 58888, 0L);
  L2: {
   L3: {
    if (l2 + Integer.MIN_VALUE <= -2147483643) { break L3; }
    l2 = 8;
    break L2;
   }
   l6 = l1;
   l4 = l0 = l0 + ((l0 == 0L) ? 4096L : 0L);
   L4: {
    L5: {
     L6: {
      if (l1 + Long.MIN_VALUE < -9223372036854775804L) { break L6; }
      l4 = l0;
      l6 = l1;
      L7: while (true) {
       if (((Words.get32(b, ((int) l4) - 58912) + 16776990) & 12632312) != 8421376) { break L5; }
       l4 = l4 + 3L;
       if ((l6 = l6 + -3L) + Long.MIN_VALUE > -9223372036854775805L) { continue L7; }
       break L7;
      }
     }
     if (l6 + Long.MIN_VALUE > -9223372036854775805L) { break L5; }
     L8: {
      switch ((int) l6) {
      case 1: case 2: break L5;
      case 3: break L8;
      default: break L4;
      }
     }
     if (((((Words.get16(b, ((int) l4) - 58912) & 0xffff) | ((b[((int) (l4 + 2L)) - 58912] & 0xff) << 16)) + 16776990) & 12632312) == 8421376) { break L4; }
    }
    if (Core1.f6(m, l0, l1) != 0) { break L4; }
    l2 = 5;
    break L2;
   }
   Core1.f26(m, l5 + 24L, (l2 + Integer.MIN_VALUE < -2147483642) ? l2 : 0, l0, l1);
   l9 = 1;
   l2 = 0;
   if ((b[((int) l5) - 58888] & 0xff) != 1) { break L2; }
   l10 = Words.get32(b, ((int) l5) - 58868);
   l7 = Words.get64(b, ((int) l5) - 58880);
   L9: {
    L10: {
     L11: {
      switch ((int) (b[((int) l5) - 58872] & 0xffL)) {
      case 1: break L11;
      case 2: break L10;
      default: break L9;
      }
     }
     l9 = 2;
     break L9;
    }
    l10 = 0;
    l9 = 3;
   }
   l4 = 0L;
   l6 = l7;
   L12: {
    if (l7 + Long.MIN_VALUE < -9223372036854775792L) { break L12; }
    Core1.f25(m, l5 + 8L, l0, l1, l7);
    l6 = Words.get64(b, ((int) l5) - 58896);
    l4 = Words.get64(b, ((int) l5) - 58904);
   }
   L13: {
    if (l6 + Long.MIN_VALUE < -9223372036854775805L) { break L13; }
    L14: while (true) {
     if ((l1 - l4) + Long.MIN_VALUE < -9223372036854775800L) { break L13; }
     L15: {
      L16: {
       if (((l8 = Words.get64(b, ((int) (l0 + l4)) - 58912)) & 67553998437089520L) != 63050398541283552L) { break L16; }
       l6 = l6 + -3L;
       l4 = l4 + 9L;
       break L15;
      }
      if (l6 + Long.MIN_VALUE < -9223372036854775800L) { break L13; }
      if ((l8 & -9187201950435737472L) != 0L) { break L13; }
      l6 = l6 + -8L;
      l4 = l4 + 8L;
     }
     if (l6 + Long.MIN_VALUE > -9223372036854775806L) { continue L14; }
     break L14;
    }
   }
   L17: {
    if (l6 == 0L) { break L17; }
    if (l1 + Long.MIN_VALUE <= l4 + Long.MIN_VALUE) { break L17; }
    l6 = l6 + -1L;
    L18: while (true) {
     l4 = Words.get64(b, ((int) (((((b[((int) (l0 + l4)) - 58912] & 0xff) >>> 1) & 0xffffffffL) & 120L) + 66680L)) - 58912) + l4;
     if (l6 == 0L) { break L17; }
     l6 = l6 + -1L;
     if (l1 + Long.MIN_VALUE > l4 + Long.MIN_VALUE) { continue L18; }
     break L18;
    }
   }
   Words.put32(b, ((int) l3) - 58892, l10);
   Words.put32(b, ((int) l3) - 58896, l9);
   Words.put64(b, ((int) l3) - 58904, l4);
   Words.put64(b, ((int) l3) - 58912, l7);
  }
  m.g0 = l5 + 48L;
  final int t19 = l2;
  return t19;
 }
 throw State.trap();
}

static int f312(State m, long l0, long l1, long l2, long l3, long l4) {
 final byte[] b = m.bytes;
 long l5 = 0;
 long l6 = 0;
 long l7 = 0;
 long l8 = 0;
 long l9 = 0;
 int l10 = 0;
 m.g0 = l5 = m.g0 - 288L;
 L1: {
  L2: {
   L3: {
    if ((l6 = l5) < 16L) { break L3; }
    m.fill((int) (l6 + 32L), 0, (int) 256L);
    l7 = 66814L;
    l8 = 8L;
    L4: {
     if (l1 == 0L) { break L4; }
     l5 = l0 + ((l0 == 0L) ? 4096L : 0L);
     l0 = 0L;
     L5: {
      L6: while (true) {
       if ((b[((int) (l9 = l5 + l0)) - 58912] & 0xff) == 32) { break L5; }
       if (l1 != (l0 = l0 + 1L)) { continue L6; }
       break L4;
      }
     }
     if (l0 + Long.MIN_VALUE < -9223372036854775804L) { break L4; }
     l1 = (l0 ^ -1L) + l1;
     l9 = l9 + 1L;
     L7: {
      if (l0 != 4L) { break L7; }
      if ((b[((int) l5) - 58912] & 0xff) != 114) { break L4; }
      if ((b[((int) l5) - 58911] & 0xff) != 101) { break L4; }
      if ((b[((int) l5) - 58910] & 0xff) != 97) { break L4; }
      if ((b[((int) l5) - 58909] & 0xff) != 100) { break L4; }
      Core1.f36(m, l6, l6 + 32L, l9, l1);
      l8 = Words.get64(b, ((int) l6) - 58904);
      l7 = Words.get64(b, ((int) l6) - 58912);
      break L4;
     }
     if (l0 + Long.MIN_VALUE > -9223372036854775803L) { break L4; }
     if ((b[((int) l5) - 58912] & 0xff) != 112) { break L4; }
     if ((b[((int) l5) - 58911] & 0xff) != 114) { break L4; }
     if ((b[((int) l5) - 58910] & 0xff) != 105) { break L4; }
     if ((b[((int) l5) - 58909] & 0xff) != 110) { break L4; }
     if ((b[((int) l5) - 58908] & 0xff) != 116) { break L4; }
     Core2.f45(m, l6 + 16L, l6 + 32L, l9, l1);
     l8 = Words.get64(b, ((int) l6) - 58888);
     l7 = Words.get64(b, ((int) l6) - 58896);
    }
    Words.put64(b, ((int) l4) - 58912, l8);
    L8: {
     if (l3 + Long.MIN_VALUE >= l8 + Long.MIN_VALUE) { break L8; }
     l10 = 6;
     break L1;
    }
    L9: {
     if (((l4 = l2 + (l3 = (l2 == 0L) ? 4096L : 0L)) - l7) + Long.MIN_VALUE >= l8 + Long.MIN_VALUE) { break L9; }
     l9 = l8 & 3L;
     l1 = 0L;
     L10: {
      if (l8 + Long.MIN_VALUE < -9223372036854775804L) { break L10; }
      l8 = l8 & -4L;
      l1 = 0L;
      L11: while (true) {
       b[((int) (l0 = l4 + l1)) - 58912] = (byte) (b[((int) (l5 = l7 + l1)) - 58912] & 0xff);
       b[((int) (l0 + 1L)) - 58912] = (byte) (b[((int) (l5 + 1L)) - 58912] & 0xff);
       b[((int) (l0 + 2L)) - 58912] = (byte) (b[((int) (l5 + 2L)) - 58912] & 0xff);
       b[((int) (l0 + 3L)) - 58912] = (byte) (b[((int) (l5 + 3L)) - 58912] & 0xff);
       if (l8 != (l1 = l1 + 4L)) { continue L11; }
       break L11;
      }
      if (l9 == 0L) { break L2; }
     }
     l0 = l7 + l1;
     l1 = l2 + (l3 + l1);
     L12: while (true) {
      b[((int) l1) - 58912] = (byte) (b[((int) l0) - 58912] & 0xff);
      l1 = l1 + 1L;
      l0 = l0 + 1L;
      if ((l9 = l9 + -1L) != 0L) { continue L12; }
      break L2;
     }
    }
    if (l8 == 0L) { break L2; }
    m.copy((int) l4, (int) l7, (int) l8);
    l10 = 0;
    break L1;
   }
   throw State.trap();
  }
  l10 = 0;
 }
 m.g0 = l6 + 288L;
 return l10;
}

static int f314_1(State m, long l0, long l1, int l2, int l3, long l6, long l7, long l8, long l9, long l10, long l11, long l12, long l13, long l14, long l15, long l16, long l17, long l18, int l24, int l25, int l26, int l27, int l28, int l29) {
 final byte[] b = m.bytes;
 int exit = 0;
 PART: {
  L7: {
   L8: {
    L9: {
     L10: {
      if ((l7 = l7) < 16L) { break L10; }
      m.fill((int) (l7 + 176L), 0, (int) 512L);
      Words.put64(b, ((int) l6) - 58912, 0L);
      Words.put64(b, ((int) l7) - 58744, 0L);
      Words.put64(b, ((int) l7) - 58752, 0L);
      Words.put64(b, ((int) l7) - 58760, 0L);
      l24 = 8;
      if (l2 + Integer.MIN_VALUE > -2147483643) { exit = 1; break PART; }
      if (l3 + Integer.MIN_VALUE > -2147483646) { exit = 1; break PART; }
      l8 = l1;
      l11 = l10 = l0 + (l9 = (l0 == 0L) ? 4096L : 0L);
      L11: {
       L12: {
        L13: {
         if (l1 + Long.MIN_VALUE < -9223372036854775804L) { break L13; }
         l11 = l10;
         l8 = l1;
         L14: while (true) {
          if (((Words.get32(b, ((int) l11) - 58912) + 16776990) & 12632312) != 8421376) { break L12; }
          l11 = l11 + 3L;
          if ((l8 = l8 + -3L) + Long.MIN_VALUE > -9223372036854775805L) { continue L14; }
          break L14;
         }
        }
        if (l8 + Long.MIN_VALUE > -9223372036854775805L) { break L12; }
        L15: {
         switch ((int) l8) {
         case 1: case 2: break L12;
         case 3: break L15;
         default: break L11;
         }
        }
        if (((((Words.get16(b, ((int) l11) - 58912) & 0xffff) | ((b[((int) (l11 + 2L)) - 58912] & 0xff) << 16)) + 16776990) & 12632312) == 8421376) { break L11; }
       }
       if (Core1.f6(m, l10, l1) != 0) { break L11; }
       l24 = 5;
       exit = 1; break PART;
      }
      l25 = (l3 + Integer.MIN_VALUE < -2147483645) ? l3 : 0;
      m.fill((int) (l7 + 176L), 0, (int) 512L);
      l8 = 0L;
      Words.put64(b, ((int) l7) - 58744, 0L);
      Words.put64(b, ((int) l7) - 58752, 512L);
      Words.put64(b, ((int) l7) - 58760, l7 + 176L);
      m.fill((int) (l7 + 1008L), 0, (int) 224L);
      Words.put64(b, ((int) l7) - 58000, 0L);
      Words.put64(b, ((int) l7) - 57976, 0L);
      Words.put64(b, ((int) l7) - 57992, 0L);
      Words.put64(b, ((int) l7) - 57984, 0L);
      m.fill((int) (l7 + 688L), 0, (int) 224L);
      Core1.f26(m, l7 + 912L, l3 = (l2 + Integer.MIN_VALUE < -2147483642) ? l2 : 0, l10, l1);
      L16: {
       if ((b[((int) l7) - 58000] & 0xff) != 1) { break L16; }
       l24 = Words.get32(b, ((int) l7) - 57980);
       l2 = b[((int) l7) - 57984] & 0xff;
       l12 = Words.get64(b, ((int) l7) - 57992);
       Words.put64(b, ((int) l7) - 57680, 0L);
       Words.put64(b, ((int) l7) - 57616, 0L);
       Words.put64(b, ((int) l7) - 57624, 83372L);
       Words.put64(b, ((int) l7) - 57632, 0L);
       Words.put64(b, ((int) l7) - 57640, 83372L);
       Words.put64(b, ((int) l7) - 57656, l12);
       Words.put64(b, ((int) l7) - 57672, l10);
       b[((int) l7) - 57680] = (byte) l25;
       Words.put32(b, ((int) l7) - 57648, l3 = (l2 != 2) ? 1 : 0);
       Words.put32(b, ((int) l7) - 57644, l3 != 0 ? l24 : 0);
       Words.put64(b, ((int) l7) - 57664, l1);
       l11 = 0L;
       L17: {
        if (l1 + Long.MIN_VALUE < -9223372036854775776L) { break L17; }
        Core1.f25(m, l7 + 24L, l10, l1, l1);
        l8 = l1 - Words.get64(b, ((int) l7) - 58880);
        l11 = Words.get64(b, ((int) l7) - 58888);
       }
       if ((l1 - l11) + Long.MIN_VALUE < -9223372036854775800L) { exit = 2; break PART; }
       L18: while (true) {
        L19: {
         L20: {
          if (((l0 = Words.get64(b, ((int) (l10 + l11)) - 58912)) & 67553998437089520L) != 63050398541283552L) { break L20; }
          l8 = l8 + 3L;
          l11 = l11 + 9L;
          break L19;
         }
         if ((l0 & -9187201950435737472L) != 0L) { exit = 2; break PART; }
         l8 = l8 + 8L;
         l11 = l11 + 8L;
        }
        if ((l1 - l11) + Long.MIN_VALUE <= -9223372036854775801L) { exit = 2; break PART; }
        continue L18;
       }
      }
      Core1.f7(m, l7 + 688L, l3, l10, l1);
      m.copy((int) (l7 + 1008L), (int) (l7 + 688L), (int) 224L);
      Core1.f30(m, l7 + 136L, l10, l1, l13 = Words.get64(b, ((int) l7) - 57904));
      l26 = b[((int) l7) - 57896] & 0xff;
      l14 = Words.get64(b, ((int) l7) - 58776);
      L21: {
       if ((l15 = Words.get64(b, ((int) l7) - 58768)) != 0L) { break L21; }
       if ((l26 & 1) == 0) { break L21; }
       Words.put64(b, ((int) l7) - 57608, 0L);
       Words.put64(b, ((int) l7) - 57600, 0L);
       Words.put64(b, ((int) l7) - 57592, 0L);
       Core2.f60(m, l7 + 1304L, l10, l1);
       if ((l3 & 255) != 5) { exit = 3; break PART; }
       if (((b[((int) l7) - 57608] & 0xff) & 255) != 1) { exit = 3; break PART; }
       if (((b[((int) l7) - 57600] & 0xff) & 255) != 2) { exit = 3; break PART; }
       Words.put32(b, ((int) l7) - 57679, 0);
       b[((int) l7) - 57680] = (byte) l25;
       Words.put32(b, ((int) l7) - 57676, 0);
       Words.put64(b, ((int) l7) - 57656, 0L);
       Words.put64(b, ((int) l7) - 57664, l1);
       Words.put64(b, ((int) l7) - 57672, l10);
       Words.put64(b, ((int) l7) - 57648, 0L);
       Words.put64(b, ((int) l7) - 57616, 0L);
       Words.put64(b, ((int) l7) - 57624, 83372L);
       Words.put64(b, ((int) l7) - 57632, 0L);
       Words.put64(b, ((int) l7) - 57640, 83372L);
       Core2.f50(m, l7 + 1232L, l7 + 152L, 22);
       exit = 3; break PART;
      }
      l16 = l7 + 1024L;
      l17 = Words.get64(b, ((int) l7) - 57696);
      l12 = l1;
      l11 = l10;
      L22: {
       L23: while (true) {
        if ((l27 = (l12 == 0L) ? 1 : 0) != 0) { break L22; }
        l2 = (l24 = (int) b[((int) l11) - 58912]) & 255;
        l8 = 1L;
        L24: {
         if (l24 > -1) { break L24; }
         l28 = (b[((int) l11) - 58911] & 0xff) & 63;
         L25: {
          if (l24 + Integer.MIN_VALUE > 2147483615) { break L25; }
          l2 = ((l2 << 6) & 1984) | l28;
          l8 = 2L;
          break L24;
         }
         l29 = (b[((int) l11) - 58910] & 0xff) & 63;
         L26: {
          if (l24 + Integer.MIN_VALUE > 2147483631) { break L26; }
          l2 = ((l28 << 6) | ((l2 << 12) & 61440)) | l29;
          l8 = 3L;
          break L24;
         }
         l2 = ((l29 << 6) | ((l28 << 12) | ((l2 << 18) & 1835008))) | ((b[((int) l11) - 58909] & 0xff) & 63);
         l8 = 4L;
        }
        l12 = l12 - l8;
        l11 = l11 + l8;
        L27: {
         if (l2 > 35999) { break L27; }
         L28: {
          switch (l2 + -40) {
          case 0: case 5: break L22;
          case 1: case 2: case 3: case 4: continue L23;
          default: break L28;
          }
         }
         if (l2 != 8722) { continue L23; }
         break L22;
        }
        L29: {
         switch (l2 + -65288) {
         case 0: case 5: break L22;
         case 1: case 2: case 3: case 4: continue L23;
         default: break L29;
         }
        }
        if (l2 == 36127) { break L22; }
        if (l2 != 36000) { continue L23; }
        break L23;
       }
      }
      l11 = 83334L;
      l8 = 8L;
      L30: {
       L31: {
        L32: {
         L33: {
          L34: {
           switch ((int) ((l3 & 0xffffffffL) & 255L)) {
           case 1: break L34;
           case 3: break L33;
           case 4: break L32;
           case 5: break L30;
           default: break L31;
           }
          }
          if (l27 != 0) { break L31; }
          final long t35 = l27 != 0 ? 83145L : 83112L;
          final int t36 = ((l25 & 255) != 2) ? 1 : 0;
          l11 = t36 != 0 ? 83145L : t35;
          l8 = 33L;
          break L30;
         }
         if (l27 != 0) { break L31; }
         final long t37 = l27 != 0 ? 83220L : 83178L;
         final int t38 = ((l25 & 255) != 2) ? 1 : 0;
         l11 = t38 != 0 ? 83220L : t37;
         l8 = 42L;
         break L30;
        }
        l11 = ((l25 & 255) == 2) ? 83262L : 83298L;
        l8 = 36L;
        break L30;
       }
       l11 = 83342L;
       l8 = 30L;
      }
      Words.put64(b, ((int) l7) - 57912, l8);
      Words.put64(b, ((int) l7) - 57920, l11);
      Words.put64(b, ((int) l7) - 57928, l17);
      Words.put64(b, ((int) l7) - 57936, l16);
      Words.put64(b, ((int) l7) - 57944, 0L);
      Words.put64(b, ((int) l7) - 57952, l13);
      Words.put64(b, ((int) l7) - 57960, l1);
      Words.put64(b, ((int) l7) - 57968, l10);
      b[((int) l7) - 57976] = (byte) l25;
      L39: {
       if (Core1.f31(m, l14, l15, 83372L, 3L) != 0) { break L39; }
       if (Core1.f31(m, l14, l15, 83375L, 3L) != 0) { break L39; }
       if (Core1.f31(m, l14, l15, 77252L, 1L) != 0) { break L39; }
       if (Core1.f31(m, l14, l15, 83378L, 3L) != 0) { break L39; }
       if (Core1.f31(m, l14, l15, 83381L, 3L) == 0) { break L7; }
      }
      l2 = 1;
      l24 = 19;
      if (((l25 = 1 << (l3 & 255)) & 26) != 0) { break L8; }
      if ((l25 & 5) != 0) { exit = 4; break PART; }
      l18 = l13 + 1L;
      l8 = 0L;
      l11 = 0L;
      L40: {
       if (l1 + Long.MIN_VALUE < -9223372036854775776L) { break L40; }
       Core1.f25(m, l7 + 120L, l10, l1, l1);
       l8 = l1 - Words.get64(b, ((int) l7) - 58784);
       l11 = Words.get64(b, ((int) l7) - 58792);
      }
      l2 = (l18 == 0L) ? 1 : 0;
      if ((l1 - l11) + Long.MIN_VALUE < -9223372036854775800L) { break L9; }
      L41: while (true) {
       L42: {
        L43: {
         if (((l12 = Words.get64(b, ((int) (l10 + l11)) - 58912)) & 67553998437089520L) != 63050398541283552L) { break L43; }
         l8 = l8 + 3L;
         l11 = l11 + 9L;
         break L42;
        }
        if ((l12 & -9187201950435737472L) != 0L) { break L9; }
        l8 = l8 + 8L;
        l11 = l11 + 8L;
       }
       if ((l1 - l11) + Long.MIN_VALUE <= -9223372036854775801L) { break L9; }
       continue L41;
      }
     }
     throw State.trap();
    }
    l12 = l2 != 0 ? -1L : l18;
    L44: {
     if (l11 + Long.MIN_VALUE >= l1 + Long.MIN_VALUE) { break L44; }
     L45: while (true) {
      l8 = l8 + 1L;
      if ((l11 = Words.get64(b, ((int) (((((b[((int) (l10 + l11)) - 58912] & 0xff) >>> 1) & 0xffffffffL) & 120L) + 66680L)) - 58912) + l11) + Long.MIN_VALUE < l1 + Long.MIN_VALUE) { continue L45; }
      break L45;
     }
    }
    if (l12 + Long.MIN_VALUE < l8 + Long.MIN_VALUE) { break L7; }
   }
   l24 = 18;
   l2 = 1;
   exit = 4; break PART;
  }
 }
 m.kept[0] = l0;
 m.kept[1] = l2;
 m.kept[2] = l3;
 m.kept[3] = l7;
 m.kept[4] = l8;
 m.kept[5] = l9;
 m.kept[6] = l10;
 m.kept[7] = l11;
 m.kept[8] = l12;
 m.kept[9] = l13;
 m.kept[10] = l14;
 m.kept[11] = l15;
 m.kept[12] = l16;
 m.kept[13] = l17;
 m.kept[14] = l18;
 m.kept[15] = l24;
 m.kept[16] = l25;
 m.kept[17] = l26;
 m.kept[18] = l27;
 m.kept[19] = l28;
 m.kept[20] = l29;
 return exit;
}

static int f314_2(State m, long l0, int l3, long l7, long l8, long l9, long l10, long l11, long l12, long l13, long l14, long l17, long l18, long l19, long l20, long l21, long l22, long l23, int l24) {
 final byte[] b = m.bytes;
 int exit = 0;
 PART: {
  L108: {
   if ((l18 = Words.get64(b, ((int) l7) - 57672)) + Long.MIN_VALUE < -9223372036854775799L) { break L108; }
   Words.put32(b, ((int) l7) - 57662, 0);
   Words.put16(b, ((int) l7) - 57664, (short) 48869);
   Words.put16(b, ((int) l7) - 57658, (short) 0);
   Words.put64(b, ((int) l7) - 57656, 8L);
   Words.put64(b, ((int) l7) - 57672, l18);
   l12 = l18 + -8L;
   Words.put64(b, ((int) l7) - 57680, l10);
   l20 = l10 + (l19 = l18 + -16L);
   l11 = 0L;
   l21 = 0L;
   L109: {
    L110: while (true) {
     L111: {
      L112: {
       if ((l12 - l11) + Long.MIN_VALUE > -9223372036854775801L) { break L112; }
       if (l12 + Long.MIN_VALUE <= l11 + Long.MIN_VALUE) { break L108; }
       L113: while (true) {
        L114: {
         if ((b[((int) (l8 = l10 + l11)) - 58912] & 0xff) != 229) { break L114; }
         if (((b[((int) (l8 + 8L)) - 58912] & 0xff) & 255) != 190) { break L114; }
         l8 = l11;
         break L111;
        }
        if (l12 != (l11 = l11 + 1L)) { continue L113; }
        break L108;
       }
      }
      final long t115 = ((long) Long.numberOfTrailingZeros((l8 = ((((l8 = (Words.get64(b, ((int) ((l8 = l10 + l11) + 8L)) - 58912) ^ -4702111234474983746L) | (Words.get64(b, ((int) l8) - 58912) ^ -1880844493789993499L)) & 9187201950435737471L) + 9187201950435737471L) | l8) & -9187201950435737472L) ^ -9187201950435737472L)) >>> 3L;
      final int t116 = (l8 == -9187201950435737472L) ? 1 : 0;
      if ((l8 = (t116 != 0 ? 8L : t115) + l11) + Long.MIN_VALUE < (l11 + 8L) + Long.MIN_VALUE) { break L111; }
      L117: {
       if ((l12 - l8) + Long.MIN_VALUE < -9223372036854775776L) { break L117; }
       L118: while (true) {
        if (((((((((l17 = ((l14 = Words.get64(b, ((int) ((l11 = l10 + l8) + 8L)) - 58912)) ^ -4702111234474983746L) | (Words.get64(b, ((int) l11) - 58912) ^ -1880844493789993499L)) & 9187201950435737471L) + 9187201950435737471L) | l17) & ((((l14 = ((l17 = Words.get64(b, ((int) (l11 + 16L)) - 58912)) ^ -4702111234474983746L) | (l14 ^ -1880844493789993499L)) & 9187201950435737471L) + 9187201950435737471L) | l14)) & ((((l17 = ((l14 = Words.get64(b, ((int) (l11 + 24L)) - 58912)) ^ -4702111234474983746L) | (l17 ^ -1880844493789993499L)) & 9187201950435737471L) + 9187201950435737471L) | l17)) & ((((l11 = (Words.get64(b, ((int) (l11 + 32L)) - 58912) ^ -4702111234474983746L) | (l14 ^ -1880844493789993499L)) & 9187201950435737471L) + 9187201950435737471L) | l11)) & -9187201950435737472L) != -9187201950435737472L) { break L117; }
        if ((l12 - (l8 = Core2.f62(m, l7 + 1232L, l8 + 32L, l12))) + Long.MIN_VALUE > -9223372036854775777L) { continue L118; }
        break L118;
       }
      }
      l11 = l12 - l8;
      L119: {
       L120: while (true) {
        if (l11 + Long.MIN_VALUE < -9223372036854775799L) { break L119; }
        l11 = l11 + -8L;
        final long t121 = ((long) Long.numberOfTrailingZeros((l14 = ((((l14 = (Words.get64(b, ((int) ((l14 = l10 + l8) + 8L)) - 58912) ^ -4702111234474983746L) | (Words.get64(b, ((int) l14) - 58912) ^ -1880844493789993499L)) & 9187201950435737471L) + 9187201950435737471L) | l14) & -9187201950435737472L) ^ -9187201950435737472L)) >>> 3L;
        final int t122 = (l14 == -9187201950435737472L) ? 1 : 0;
        if (((l14 = t122 != 0 ? 8L : t121) + l8) + Long.MIN_VALUE >= (l8 = l8 + 8L) + Long.MIN_VALUE) { continue L120; }
        break L120;
       }
       l8 = (l14 + l8) + -8L;
       break L111;
      }
      final long t123 = ((long) Long.numberOfTrailingZeros((l11 = ((((l11 = (Words.get64(b, ((int) (l20 + 8L)) - 58912) ^ -4702111234474983746L) | (Words.get64(b, ((int) l20) - 58912) ^ -1880844493789993499L)) & 9187201950435737471L) + 9187201950435737471L) | l11) & -9187201950435737472L) ^ -9187201950435737472L)) >>> 3L;
      final int t124 = (l11 == -9187201950435737472L) ? 1 : 0;
      l8 = (t124 != 0 ? 8L : t123) + l19;
     }
     if (l8 == l12) { break L108; }
     L125: {
      if ((l18 - l8) + Long.MIN_VALUE < -9223372036854775799L) { break L125; }
      if (Words.get64(b, ((int) (l11 = l10 + l8)) - 58912) != -8365795144209483291L) { break L125; }
      if (Words.get64(b, ((int) l11) - 58911) == -4716422499747384135L) { break L109; }
     }
     l22 = 1L;
     final long t126 = l14 = l8 + 129L;
     final int t127 = (l14 + Long.MIN_VALUE < (l11 = l8 + 1L) + Long.MIN_VALUE) ? 1 : 0;
     final long t128 = t127 != 0 ? -1L : t126;
     final long t129 = l14 = l21 + 25L;
     final int t130 = (l14 + Long.MIN_VALUE < l21 + Long.MIN_VALUE) ? 1 : 0;
     if (t128 + Long.MIN_VALUE >= ((l21 = t130 != 0 ? -1L : t129) >>> 3L) + Long.MIN_VALUE) { continue L110; }
     break L110;
    }
    l19 = 0L;
    l21 = 1L;
    l14 = 1L;
    l12 = 0L;
    L131: while (true) {
     l17 = l14;
     L132: {
      L133: {
       if ((l24 = b[State.far((int) l21, 83482)] & 0xff) + Integer.MIN_VALUE < (l3 = b[((int) ((l19 + l12) + 83482L)) - 58912] & 0xff) + Integer.MIN_VALUE) { break L133; }
       l12 = l12 + 1L;
       L134: {
        if (l3 + Integer.MIN_VALUE >= l24 + Integer.MIN_VALUE) { break L134; }
        l22 = (l14 = l12 + l17) - l19;
        l12 = 0L;
        break L132;
       }
       l12 = ((l24 = (l12 == l22) ? 1 : 0) != 0) ? 0L : l12;
       l14 = (l24 != 0 ? l22 : 0L) + l17;
       break L132;
      }
      l22 = 1L;
      l14 = l17 + 1L;
      l12 = 0L;
      l19 = l17;
     }
     if ((l21 = l14 + l12) + Long.MIN_VALUE < -9223372036854775799L) { continue L131; }
     break L131;
    }
    l21 = 0L;
    l23 = 1L;
    l20 = 1L;
    l14 = 1L;
    l12 = 0L;
    L135: while (true) {
     l17 = l14;
     L136: {
      L137: {
       if ((l24 = b[((int) ((l21 + l12) + 83482L)) - 58912] & 0xff) + Integer.MIN_VALUE < (l3 = b[State.far((int) l20, 83482)] & 0xff) + Integer.MIN_VALUE) { break L137; }
       l12 = l12 + 1L;
       L138: {
        if (l3 + Integer.MIN_VALUE < l24 + Integer.MIN_VALUE) { break L138; }
        l12 = ((l24 = (l12 == l23) ? 1 : 0) != 0) ? 0L : l12;
        l14 = (l24 != 0 ? l23 : 0L) + l17;
        break L136;
       }
       l23 = (l14 = l12 + l17) - l21;
       l12 = 0L;
       break L136;
      }
      l23 = 1L;
      l14 = l17 + 1L;
      l12 = 0L;
      l21 = l17;
     }
     if ((l20 = l14 + l12) + Long.MIN_VALUE < -9223372036854775799L) { continue L135; }
     break L135;
    }
    L139: {
     L140: {
      L141: {
       L142: {
        if (l21 + Long.MIN_VALUE >= l19 + Long.MIN_VALUE) { break L142; }
        final long t143 = l12 = 9L - l19;
        final long t144 = l19;
        final int t145 = (l12 + Long.MIN_VALUE > l19 + Long.MIN_VALUE) ? 1 : 0;
        l17 = t145 != 0 ? t143 : t144;
        if ((l19 << 1L) + Long.MIN_VALUE > -9223372036854775800L) { break L140; }
        l12 = 0L;
        L146: while (true) {
         if ((b[((int) (l14 = l12 + 83482L)) - 58912] & 0xff) != (b[((int) (l14 + l22)) - 58912] & 0xff)) { break L140; }
         if (l19 != (l12 = l12 + 1L)) { continue L146; }
         break L146;
        }
        l21 = l19;
        l23 = l22;
        break L141;
       }
       final long t147 = l12 = 9L - l21;
       final long t148 = l21;
       final int t149 = (l12 + Long.MIN_VALUE > l21 + Long.MIN_VALUE) ? 1 : 0;
       l17 = t149 != 0 ? t147 : t148;
       if ((l21 << 1L) + Long.MIN_VALUE > -9223372036854775800L) { break L139; }
       L150: {
        if (!(l21 == 0L)) { break L150; }
        l21 = 0L;
        break L141;
       }
       l12 = 0L;
       L151: while (true) {
        if ((b[((int) (l14 = l12 + 83482L)) - 58912] & 0xff) != (b[((int) (l14 + l23)) - 58912] & 0xff)) { break L139; }
        if (l21 != (l12 = l12 + 1L)) { continue L151; }
        break L151;
       }
      }
      if ((l18 - l11) + Long.MIN_VALUE < -9223372036854775799L) { break L108; }
      l17 = l21 + -1L;
      l20 = 1L - l21;
      l22 = 9L - l23;
      l9 = 0L;
      L152: while (true) {
       L153: {
        L154: {
         L155: {
          if ((l8 = (l9 + Long.MIN_VALUE > l21 + Long.MIN_VALUE) ? l9 : l21) + Long.MIN_VALUE > -9223372036854775800L) { break L155; }
          l0 = l10 + l11;
          L156: while (true) {
           if ((b[((int) (l8 + 83482L)) - 58912] & 0xff) != (b[((int) (l0 + l8)) - 58912] & 0xff)) { break L154; }
           if ((l8 = l8 + 1L) != 9L) { continue L156; }
           break L156;
          }
         }
         l14 = l10 + l11;
         l8 = l17;
         L157: while (true) {
          if (l9 + Long.MIN_VALUE >= (l8 + 1L) + Long.MIN_VALUE) { break L109; }
          l0 = l14 + l8;
          l12 = l8 + 83482L;
          l8 = l8 + -1L;
          if ((b[((int) l12) - 58912] & 0xff) == (b[((int) l0) - 58912] & 0xff)) { continue L157; }
          break L157;
         }
         l11 = l11 + l23;
         l9 = l22;
         break L153;
        }
        l11 = (l20 + l11) + l8;
        l9 = 0L;
       }
       if ((l18 - l11) + Long.MIN_VALUE < -9223372036854775799L) { break L108; }
       continue L152;
      }
     }
     l21 = l19;
    }
    if ((l18 - l11) + Long.MIN_VALUE < -9223372036854775799L) { break L108; }
    L158: {
     if (l21 + Long.MIN_VALUE < -9223372036854775799L) { break L158; }
     l9 = (l0 + (l9 + l21)) + l8;
     L159: while (true) {
      l0 = l9;
      l8 = l21;
      L160: while (true) {
       if (l8 == 0L) { break L109; }
       l12 = l8 + 83481L;
       l24 = b[((int) l0) - 58912] & 0xff;
       l0 = l0 + -1L;
       l8 = l8 + -1L;
       if (l24 == (b[((int) l12) - 58912] & 0xff)) { continue L160; }
       break L160;
      }
      l9 = l9 + l17;
      if ((l18 - (l11 = l11 + l17)) + Long.MIN_VALUE <= -9223372036854775800L) { break L108; }
      continue L159;
     }
    }
    l9 = ((l9 + l21) + l0) + -1L;
    L161: while (true) {
     l0 = l11 ^ -1L;
     l12 = l10 + l11;
     l8 = l21;
     L162: {
      L163: while (true) {
       L164: {
        if ((b[((int) (l8 + 83482L)) - 58912] & 0xff) == (b[((int) (l12 + l8)) - 58912] & 0xff)) { break L164; }
        l11 = 0L - l0;
        break L162;
       }
       l0 = l0 + -1L;
       if ((l8 = l8 + 1L) != 9L) { continue L163; }
       break L163;
      }
      l0 = l9 + l11;
      l8 = l21;
      L165: while (true) {
       if (l8 == 0L) { break L109; }
       l12 = l8 + 83481L;
       l24 = b[((int) l0) - 58912] & 0xff;
       l0 = l0 + -1L;
       l8 = l8 + -1L;
       if (l24 == (b[((int) l12) - 58912] & 0xff)) { continue L165; }
       break L165;
      }
      l11 = l11 + l17;
     }
     if ((l18 - l11) + Long.MIN_VALUE < -9223372036854775799L) { break L108; }
     continue L161;
    }
   }
   l8 = 0L;
   l11 = 0L;
   L166: {
    if (l18 + Long.MIN_VALUE < -9223372036854775776L) { break L166; }
    Core1.f25(m, l7 + 48L, l10, l18, l18);
    l8 = l18 - Words.get64(b, ((int) l7) - 58856);
    l11 = Words.get64(b, ((int) l7) - 58864);
   }
   L167: {
    if ((l18 - l11) + Long.MIN_VALUE < -9223372036854775800L) { break L167; }
    L168: while (true) {
     L169: {
      L170: {
       if (((l0 = Words.get64(b, ((int) (l10 + l11)) - 58912)) & 67553998437089520L) != 63050398541283552L) { break L170; }
       l8 = l8 + 3L;
       l11 = l11 + 9L;
       break L169;
      }
      if ((l0 & -9187201950435737472L) != 0L) { break L167; }
      l8 = l8 + 8L;
      l11 = l11 + 8L;
     }
     if ((l18 - l11) + Long.MIN_VALUE > -9223372036854775801L) { continue L168; }
     break L168;
    }
   }
   L171: {
    if (l11 + Long.MIN_VALUE >= l18 + Long.MIN_VALUE) { break L171; }
    L172: while (true) {
     l8 = l8 + 1L;
     if ((l11 = Words.get64(b, ((int) (((((b[((int) (l10 + l11)) - 58912] & 0xff) >>> 1) & 0xffffffffL) & 120L) + 66680L)) - 58912) + l11) + Long.MIN_VALUE < l18 + Long.MIN_VALUE) { continue L172; }
     break L172;
    }
   }
   final long t173 = l8;
   final long t174 = l11 = l13 + 1L;
   final int t175 = (l11 == 0L) ? 1 : 0;
   l24 = (t173 == (t175 != 0 ? -1L : t174)) ? 16 : 11;
   exit = 1; break PART;
  }
 }
 m.kept[0] = l0;
 m.kept[1] = l3;
 m.kept[2] = l8;
 m.kept[3] = l9;
 m.kept[4] = l11;
 m.kept[5] = l12;
 m.kept[6] = l14;
 m.kept[7] = l17;
 m.kept[8] = l18;
 m.kept[9] = l19;
 m.kept[10] = l20;
 m.kept[11] = l21;
 m.kept[12] = l22;
 m.kept[13] = l23;
 m.kept[14] = l24;
 return exit;
}

static int f314(State m, long l0, long l1, int l2, int l3, long l4, long l5, long l6) {
 final byte[] b = m.bytes;
 long l7 = 0;
 long l8 = 0;
 long l9 = 0;
 long l10 = 0;
 long l11 = 0;
 long l12 = 0;
 long l13 = 0;
 long l14 = 0;
 long l15 = 0;
 long l16 = 0;
 long l17 = 0;
 long l18 = 0;
 long l19 = 0;
 long l20 = 0;
 long l21 = 0;
 long l22 = 0;
 long l23 = 0;
 int l24 = 0;
 int l25 = 0;
 int l26 = 0;
 int l27 = 0;
 int l28 = 0;
 int l29 = 0;
 m.g0 = l7 = m.g0 - 1328L;
 L1: {
  L2: {
   L3: {
    L4: {
     L5: {
      L6: {
       final int x46 = f314_1(m, l0, l1, l2, l3, l6, l7, l8, l9, l10, l11, l12, l13, l14, l15, l16, l17, l18, l24, l25, l26, l27, l28, l29);
       l0 = m.kept[0];
       l2 = (int) m.kept[1];
       l3 = (int) m.kept[2];
       l7 = m.kept[3];
       l8 = m.kept[4];
       l9 = m.kept[5];
       l10 = m.kept[6];
       l11 = m.kept[7];
       l12 = m.kept[8];
       l13 = m.kept[9];
       l14 = m.kept[10];
       l15 = m.kept[11];
       l16 = m.kept[12];
       l17 = m.kept[13];
       l18 = m.kept[14];
       l24 = (int) m.kept[15];
       l25 = (int) m.kept[16];
       l26 = (int) m.kept[17];
       l27 = (int) m.kept[18];
       l28 = (int) m.kept[19];
       l29 = (int) m.kept[20];
       switch (x46) {
       case 1: break L1;
       case 2: break L3;
       case 3: break L2;
       case 4: break L6;
       }
       L47: {
        L48: {
         if ((l2 = l3 & 255) + Integer.MIN_VALUE < -2147483644) { break L48; }
         L49: {
          switch (l2 + -4) {
          case 1: break L49;
          default: break L47;
          }
         }
         l0 = l1;
         l11 = l10;
         L50: {
          L51: {
           L52: while (true) {
            l12 = 0L;
            L53: {
             if (l0 != 0L) { break L53; }
             l8 = l1;
             L54: {
              L55: while (true) {
               if (l8 == 0L) { break L54; }
               l2 = (l24 = (int) b[((int) l10) - 58912]) & 255;
               l11 = 1L;
               L56: {
                if (l24 > -1) { break L56; }
                l3 = (b[((int) l10) - 58911] & 0xff) & 63;
                L57: {
                 if (l24 + Integer.MIN_VALUE > 2147483615) { break L57; }
                 l2 = ((l2 << 6) & 1984) | l3;
                 l11 = 2L;
                 break L56;
                }
                l25 = (b[((int) l10) - 58910] & 0xff) & 63;
                L58: {
                 if (l24 + Integer.MIN_VALUE > 2147483631) { break L58; }
                 l2 = ((l3 << 6) | ((l2 << 12) & 61440)) | l25;
                 l11 = 3L;
                 break L56;
                }
                l2 = ((l25 << 6) | ((l3 << 12) | ((l2 << 18) & 1835008))) | ((b[((int) l10) - 58909] & 0xff) & 63);
                l11 = 4L;
               }
               l8 = l8 - l11;
               l10 = l10 + l11;
               L59: {
                if (l2 == 65294) { break L59; }
                if (l2 != 46) { continue L55; }
               }
               l12 = l12 + 1L;
               continue L55;
              }
             }
             if (l12 + Long.MIN_VALUE < -9223372036854775806L) { break L50; }
             break L51;
            }
            l2 = (l24 = (int) b[((int) l11) - 58912]) & 255;
            l8 = 1L;
            L60: {
             if (l24 > -1) { break L60; }
             l3 = (b[((int) l11) - 58911] & 0xff) & 63;
             L61: {
              if (l24 + Integer.MIN_VALUE > 2147483615) { break L61; }
              l2 = ((l2 << 6) & 1984) | l3;
              l8 = 2L;
              break L60;
             }
             l25 = (b[((int) l11) - 58910] & 0xff) & 63;
             L62: {
              if (l24 + Integer.MIN_VALUE > 2147483631) { break L62; }
              l2 = ((l3 << 6) | ((l2 << 12) & 61440)) | l25;
              l8 = 3L;
              break L60;
             }
             l2 = ((l25 << 6) | ((l3 << 12) | ((l2 << 18) & 1835008))) | ((b[((int) l11) - 58909] & 0xff) & 63);
             l8 = 4L;
            }
            if (l2 == 44) { break L51; }
            l0 = l0 - l8;
            l11 = l11 + l8;
            if (l2 != 65292) { continue L52; }
            break L52;
           }
          }
          L63: {
           if (!(l15 == 0L)) { break L63; }
           l24 = 12;
           l2 = 1;
           break L5;
          }
          l10 = l15;
          l11 = l14;
          L64: while (true) {
           if (l10 == 0L) { break L50; }
           l3 = (l2 = (int) b[((int) l11) - 58912]) & 255;
           l8 = 1L;
           L65: {
            if (l2 > -1) { break L65; }
            l24 = (b[((int) l11) - 58911] & 0xff) & 63;
            L66: {
             if (l2 + Integer.MIN_VALUE > 2147483615) { break L66; }
             l3 = ((l3 << 6) & 1984) | l24;
             l8 = 2L;
             break L65;
            }
            l25 = (b[((int) l11) - 58910] & 0xff) & 63;
            L67: {
             if (l2 + Integer.MIN_VALUE > 2147483631) { break L67; }
             l3 = ((l24 << 6) | ((l3 << 12) & 61440)) | l25;
             l8 = 3L;
             break L65;
            }
            l3 = ((l25 << 6) | ((l24 << 12) | ((l3 << 18) & 1835008))) | ((b[((int) l11) - 58909] & 0xff) & 63);
            l8 = 4L;
           }
           l2 = 1;
           l24 = 12;
           if ((l3 + -48) + Integer.MIN_VALUE < -2147483638) { break L6; }
           if ((l3 + -65296) + Integer.MIN_VALUE < -2147483638) { break L6; }
           l11 = l11 + l8;
           l10 = l10 - l8;
           L68: {
            switch (l3 + -44) {
            case 0: case 2: break L6;
            case 1: continue L64;
            default: break L68;
            }
           }
           switch (l3 + -65292) {
           case 0: case 2: break L6;
           default: continue L64;
           }
          }
         }
         L69: {
          if (Core1.f29(m, l16, l17, 83384L) == 0) { break L69; }
          if (Core1.f29(m, l16, l17, 83388L) != 0) { break L69; }
          l10 = l15;
          l11 = l14;
          L70: while (true) {
           if (l10 == 0L) { break L69; }
           l3 = (l2 = (int) b[((int) l11) - 58912]) & 255;
           l8 = 1L;
           L71: {
            if (l2 > -1) { break L71; }
            l24 = (b[((int) l11) - 58911] & 0xff) & 63;
            L72: {
             if (l2 + Integer.MIN_VALUE > 2147483615) { break L72; }
             l3 = ((l3 << 6) & 1984) | l24;
             l8 = 2L;
             break L71;
            }
            l25 = (b[((int) l11) - 58910] & 0xff) & 63;
            L73: {
             if (l2 + Integer.MIN_VALUE > 2147483631) { break L73; }
             l3 = ((l24 << 6) | ((l3 << 12) & 61440)) | l25;
             l8 = 3L;
             break L71;
            }
            l3 = ((l25 << 6) | ((l24 << 12) | ((l3 << 18) & 1835008))) | ((b[((int) l11) - 58909] & 0xff) & 63);
            l8 = 4L;
           }
           l2 = 1;
           l24 = 14;
           if ((l3 + -48) + Integer.MIN_VALUE < -2147483638) { break L6; }
           l10 = l10 - l8;
           l11 = l11 + l8;
           if ((l3 + -65296) + Integer.MIN_VALUE >= -2147483638) { continue L70; }
           break L6;
          }
         }
         l2 = 1;
         L74: {
          if ((l26 & 1) != 0) { break L74; }
          l24 = 11;
          break L6;
         }
         l8 = l15;
         L75: {
          L76: while (true) {
           L77: {
            if (!((l10 = l8) == 0L)) { break L77; }
            l24 = 0;
            break L75;
           }
           l2 = (l24 = (int) b[((int) l14) - 58912]) & 255;
           l11 = 1L;
           L78: {
            if (l24 > -1) { break L78; }
            l3 = (b[((int) l14) - 58911] & 0xff) & 63;
            L79: {
             if (l24 + Integer.MIN_VALUE > 2147483615) { break L79; }
             l2 = ((l2 << 6) & 1984) | l3;
             l11 = 2L;
             break L78;
            }
            l25 = (b[((int) l14) - 58910] & 0xff) & 63;
            L80: {
             if (l24 + Integer.MIN_VALUE > 2147483631) { break L80; }
             l2 = ((l3 << 6) | ((l2 << 12) & 61440)) | l25;
             l11 = 3L;
             break L78;
            }
            l2 = ((l25 << 6) | ((l3 << 12) | ((l2 << 18) & 1835008))) | ((b[((int) l14) - 58909] & 0xff) & 63);
            l11 = 4L;
           }
           l24 = 13;
           if (((l2 & 2097119) + -65) + Integer.MIN_VALUE < -2147483622) { break L75; }
           if (l2 == 37) { break L75; }
           if (l2 == 8240) { break L75; }
           if (l2 == 65285) { break L75; }
           l8 = l10 - l11;
           l14 = l14 + l11;
           Core2.f61(m, l7 + 40L, l2);
           if ((b[((int) l7) - 58872] & 0xff) != 1) { continue L76; }
           break L76;
          }
         }
         l2 = (l10 != 0L) ? 1 : 0;
         break L6;
        }
        L81: {
         if ((l26 & 1) == 0) { break L81; }
         l24 = 0;
         l2 = 0;
         break L6;
        }
        L82: {
         L83: {
          L84: {
           if (Core1.f31(m, l14, l15, 83491L, 3L) != 0) { break L84; }
           if (Core1.f31(m, l14, l15, 83494L, 3L) != 0) { break L84; }
           l2 = 1;
           l24 = 11;
           l3 = Core1.f31(m, l14, l15, 83497L, 3L);
           if (l13 == 0L) { break L6; }
           if (l3 == 0) { break L6; }
           break L83;
          }
          if (l13 == 0L) { break L82; }
         }
         Core1.f30(m, l7 + 104L, l10, l1, l13 + -1L);
         l10 = Words.get64(b, ((int) l7) - 58800);
         l11 = Words.get64(b, ((int) l7) - 58808);
         L85: while (true) {
          if (l10 == 0L) { break L82; }
          l2 = (l24 = (int) b[((int) l11) - 58912]) & 255;
          l8 = 1L;
          L86: {
           if (l24 > -1) { break L86; }
           l3 = (b[((int) l11) - 58911] & 0xff) & 63;
           L87: {
            if (l24 + Integer.MIN_VALUE > 2147483615) { break L87; }
            l2 = ((l2 << 6) & 1984) | l3;
            l8 = 2L;
            break L86;
           }
           l25 = (b[((int) l11) - 58910] & 0xff) & 63;
           L88: {
            if (l24 + Integer.MIN_VALUE > 2147483631) { break L88; }
            l2 = ((l3 << 6) | ((l2 << 12) & 61440)) | l25;
            l8 = 3L;
            break L86;
           }
           l2 = ((l25 << 6) | ((l3 << 12) | ((l2 << 18) & 1835008))) | ((b[((int) l11) - 58909] & 0xff) & 63);
           l8 = 4L;
          }
          Core2.f63(m, l7 + 96L, l2);
          l10 = l10 - l8;
          l11 = l11 + l8;
          l2 = 1;
          if ((b[((int) l7) - 58816] & 0xff) != 1) { continue L85; }
          l24 = 20;
          if (((b[((int) l7) - 58815] & 0xff) & 255) == 0) { continue L85; }
          break L6;
         }
        }
        l2 = 1;
        l24 = 11;
        break L6;
       }
       L89: {
        L90: {
         if (Core1.f31(m, l14, l15, 83491L, 3L) != 0) { break L90; }
         if (Core1.f31(m, l14, l15, 83494L, 3L) != 0) { break L90; }
         if (Core1.f31(m, l14, l15, 83497L, 3L) == 0) { break L89; }
        }
        Words.put32(b, ((int) l7) - 57608, 24180);
        l8 = 0L;
        Words.put64(b, ((int) l7) - 57664, 0L);
        Words.put64(b, ((int) l7) - 57672, 0L);
        Words.put64(b, ((int) l7) - 57680, 0L);
        Core2.f51(m, l7 + 1232L, l7 + 1304L, l10, l1);
        if ((b[((int) l7) - 57680] & 0xff) != 1) { break L89; }
        l11 = 0L;
        L91: {
         if ((l12 = Words.get64(b, ((int) l7) - 57672)) + Long.MIN_VALUE < -9223372036854775776L) { break L91; }
         Core1.f25(m, l7 + 80L, l10, l12, l12);
         l8 = l12 - Words.get64(b, ((int) l7) - 58824);
         l11 = Words.get64(b, ((int) l7) - 58832);
        }
        L92: {
         if ((l12 - l11) + Long.MIN_VALUE < -9223372036854775800L) { break L92; }
         L93: while (true) {
          L94: {
           L95: {
            if (((l14 = Words.get64(b, ((int) (l10 + l11)) - 58912)) & 67553998437089520L) != 63050398541283552L) { break L95; }
            l8 = l8 + 3L;
            l11 = l11 + 9L;
            break L94;
           }
           if ((l14 & -9187201950435737472L) != 0L) { break L92; }
           l8 = l8 + 8L;
           l11 = l11 + 8L;
          }
          if ((l12 - l11) + Long.MIN_VALUE > -9223372036854775801L) { continue L93; }
          break L93;
         }
        }
        L96: {
         if (l11 + Long.MIN_VALUE >= l12 + Long.MIN_VALUE) { break L96; }
         L97: while (true) {
          l8 = l8 + 1L;
          if ((l11 = Words.get64(b, ((int) (((((b[((int) (l10 + l11)) - 58912] & 0xff) >>> 1) & 0xffffffffL) & 120L) + 66680L)) - 58912) + l11) + Long.MIN_VALUE < l12 + Long.MIN_VALUE) { continue L97; }
          break L97;
         }
        }
        if (l13 + Long.MIN_VALUE >= l8 + Long.MIN_VALUE) { break L89; }
        l2 = 1;
        l24 = 17;
        break L6;
       }
       Words.put32(b, ((int) l7) - 57608, 26376);
       Words.put64(b, ((int) l7) - 57664, 0L);
       Words.put64(b, ((int) l7) - 57672, 0L);
       Words.put64(b, ((int) l7) - 57680, 0L);
       Core2.f51(m, l7 + 1232L, l7 + 1304L, l10, l1);
       L98: {
        if ((b[((int) l7) - 57680] & 0xff) != 1) { break L98; }
        l12 = Words.get64(b, ((int) l7) - 57672);
        L99: {
         if (Core1.f31(m, l8 = l10 + (l11 = Words.get64(b, ((int) l7) - 57664)), l11 = l1 - l11, 83392L, 12L) != 0) { break L99; }
         if (Core1.f31(m, l8, l11, 83404L, 12L) != 0) { break L99; }
         if (Core1.f31(m, l8, l11, 83416L, 9L) != 0) { break L99; }
         if (Core1.f31(m, l8, l11, 83425L, 9L) != 0) { break L99; }
         if (Core1.f31(m, l8, l11, 83434L, 12L) != 0) { break L99; }
         if (Core1.f31(m, l8, l11, 83446L, 12L) != 0) { break L99; }
         if (Core1.f31(m, l8, l11, 83458L, 12L) != 0) { break L99; }
         if (Core1.f31(m, l8, l11, 83470L, 12L) == 0) { break L98; }
        }
        l8 = 0L;
        l11 = 0L;
        L100: {
         if (l12 + Long.MIN_VALUE < -9223372036854775776L) { break L100; }
         Core1.f25(m, l7 + 64L, l10, l12, l12);
         l8 = l12 - Words.get64(b, ((int) l7) - 58840);
         l11 = Words.get64(b, ((int) l7) - 58848);
        }
        L101: {
         if ((l12 - l11) + Long.MIN_VALUE < -9223372036854775800L) { break L101; }
         L102: while (true) {
          L103: {
           L104: {
            if (((l14 = Words.get64(b, ((int) (l10 + l11)) - 58912)) & 67553998437089520L) != 63050398541283552L) { break L104; }
            l8 = l8 + 3L;
            l11 = l11 + 9L;
            break L103;
           }
           if ((l14 & -9187201950435737472L) != 0L) { break L101; }
           l8 = l8 + 8L;
           l11 = l11 + 8L;
          }
          if ((l12 - l11) + Long.MIN_VALUE > -9223372036854775801L) { continue L102; }
          break L102;
         }
        }
        L105: {
         if (l11 + Long.MIN_VALUE >= l12 + Long.MIN_VALUE) { break L105; }
         L106: while (true) {
          l8 = l8 + 1L;
          if ((l11 = Words.get64(b, ((int) (((((b[((int) (l10 + l11)) - 58912] & 0xff) >>> 1) & 0xffffffffL) & 120L) + 66680L)) - 58912) + l11) + Long.MIN_VALUE < l12 + Long.MIN_VALUE) { continue L106; }
          break L106;
         }
        }
        if (l8 + Long.MIN_VALUE >= l13 + Long.MIN_VALUE) { break L98; }
        l2 = 1;
        l24 = 15;
        break L6;
       }
       Words.put32(b, ((int) l7) - 57608, 26376);
       Words.put64(b, ((int) l7) - 57664, 0L);
       Words.put64(b, ((int) l7) - 57672, 0L);
       Words.put64(b, ((int) l7) - 57680, 0L);
       Core2.f51(m, l7 + 1232L, l7 + 1304L, l10, l1);
       l2 = 1;
       L107: {
        if ((b[((int) l7) - 57680] & 0xff) == 1) { break L107; }
        l24 = 11;
        break L6;
       }
       final int x176 = f314_2(m, l0, l3, l7, l8, l9, l10, l11, l12, l13, l14, l17, l18, l19, l20, l21, l22, l23, l24);
       l0 = m.kept[0];
       l3 = (int) m.kept[1];
       l8 = m.kept[2];
       l9 = m.kept[3];
       l11 = m.kept[4];
       l12 = m.kept[5];
       l14 = m.kept[6];
       l17 = m.kept[7];
       l18 = m.kept[8];
       l19 = m.kept[9];
       l20 = m.kept[10];
       l21 = m.kept[11];
       l22 = m.kept[12];
       l23 = m.kept[13];
       l24 = (int) m.kept[14];
       switch (x176) {
       case 1: break L6;
       }
       l24 = 11;
      }
      if (l15 == 0L) { break L5; }
      l25 = 8;
      l3 = 4;
      break L4;
     }
     l25 = ((l3 = (l1 == 0L) ? 1 : 0) != 0) ? 9 : 10;
     l3 = l3 != 0 ? 5 : 6;
    }
    Core2.f50(m, l7 + 936L, l7 + 152L, l3);
    L177: {
     L178: {
      L179: {
       if (l2 != 0) { break L179; }
       if (((b[((int) l7) - 57896] & 0xff) & 1) == 0) { break L179; }
       Core2.f50(m, l7 + 936L, l7 + 152L, 7);
       break L178;
      }
      if (l2 == 0) { break L178; }
      if (l24 != 11) { break L177; }
     }
     L180: {
      if ((l11 = Words.get64(b, ((int) l7) - 57696)) == 0L) { break L180; }
      L181: {
       if (Core1.f29(m, l16, l11, 83384L) == 0) { break L181; }
       if (Core1.f29(m, l16, l11, 83388L) == 0) { break L180; }
      }
      Core2.f50(m, l7 + 936L, l7 + 152L, l25);
     }
     if (l2 == 0) { break L2; }
    }
    Core2.f50(m, l7 + 936L, l7 + 152L, l24);
    break L2;
   }
   L182: {
    if (l11 + Long.MIN_VALUE >= l1 + Long.MIN_VALUE) { break L182; }
    L183: while (true) {
     l8 = l8 + 1L;
     if ((l11 = Words.get64(b, ((int) (((((b[((int) (l10 + l11)) - 58912] & 0xff) >>> 1) & 0xffffffffL) & 120L) + 66680L)) - 58912) + l11) + Long.MIN_VALUE < l1 + Long.MIN_VALUE) { continue L183; }
     break L183;
    }
   }
   l24 = 3;
   L184: {
    L185: {
     L186: {
      switch (l2) {
      case 1: break L184;
      case 2: break L185;
      default: break L186;
      }
     }
     l24 = (l8 + Long.MIN_VALUE <= l12 + Long.MIN_VALUE) ? 1 : 0;
    }
    Core2.f50(m, l7 + 1232L, l7 + 152L, l24);
    break L2;
   }
   Core2.f50(m, l7 + 1232L, l7 + 152L, 2);
   Core1.f30(m, l7 + 8L, l10, l1, l12);
   L187: {
    if (Core1.f31(m, l11 = Words.get64(b, ((int) l7) - 58904), l8 = Words.get64(b, ((int) l7) - 58896), 70241L, 3L) != 0) { break L187; }
    if (Core1.f31(m, l11, l8, 70244L, 3L) != 0) { break L187; }
    if (Core1.f31(m, l11, l8, 70247L, 3L) != 0) { break L187; }
    if (Core1.f31(m, l11, l8, 70250L, 3L) != 0) { break L187; }
    if (Core1.f31(m, l11, l8, 70253L, 3L) != 0) { break L187; }
    if (Core1.f31(m, l11, l8, 70256L, 3L) != 0) { break L187; }
    if (Core1.f31(m, l11, l8, 70259L, 3L) != 0) { break L187; }
    if (Core1.f31(m, l11, l8, 70262L, 3L) != 0) { break L187; }
    if (Core1.f31(m, l11, l8, 70265L, 3L) != 0) { break L187; }
    if (Core1.f31(m, l11, l8, 70268L, 3L) != 0) { break L187; }
    if (Core1.f31(m, l11, l8, 70271L, 3L) != 0) { break L187; }
    if (Core1.f31(m, l11, l8, 70274L, 3L) != 0) { break L187; }
    if (Core1.f31(m, l11, l8, 70277L, 3L) != 0) { break L187; }
    L188: while (true) {
     if (l8 == 0L) { break L2; }
     l2 = (l24 = (int) b[((int) l11) - 58912]) & 255;
     l1 = 1L;
     L189: {
      if (l24 > -1) { break L189; }
      l3 = (b[((int) l11) - 58911] & 0xff) & 63;
      L190: {
       if (l24 + Integer.MIN_VALUE > 2147483615) { break L190; }
       l2 = ((l2 << 6) & 1984) | l3;
       l1 = 2L;
       break L189;
      }
      l25 = (b[((int) l11) - 58910] & 0xff) & 63;
      L191: {
       if (l24 + Integer.MIN_VALUE > 2147483631) { break L191; }
       l2 = ((l3 << 6) | ((l2 << 12) & 61440)) | l25;
       l1 = 3L;
       break L189;
      }
      l2 = ((l25 << 6) | ((l3 << 12) | ((l2 << 18) & 1835008))) | ((b[((int) l11) - 58909] & 0xff) & 63);
      l1 = 4L;
     }
     if ((l2 + -48) + Integer.MIN_VALUE < -2147483638) { break L187; }
     l8 = l8 - l1;
     l11 = l11 + l1;
     if ((l2 + -65296) + Integer.MIN_VALUE > -2147483639) { continue L188; }
     break L188;
    }
   }
   Core2.f50(m, l7 + 1232L, l7 + 152L, 21);
  }
  final int t192 = (int) l6;
  final long t193 = l11 = Words.get64(b, ((int) l7) - 58744);
  final int t194 = l2 = (l11 + Long.MIN_VALUE < -9223372036854775295L) ? 1 : 0;
  Words.put64(b, t192 - 58912, l11 = t194 != 0 ? t193 : 0L);
  L195: {
   if (l5 + Long.MIN_VALUE >= l11 + Long.MIN_VALUE) { break L195; }
   l24 = 6;
   break L1;
  }
  L196: {
   L197: {
    final long t198 = l6 = l4 + (l12 = (l4 == 0L) ? 4096L : 0L);
    final long t199 = l7 + 176L;
    final int t200 = l2;
    if ((t198 - (l0 = t200 != 0 ? t199 : 83372L)) + Long.MIN_VALUE >= l11 + Long.MIN_VALUE) { break L197; }
    l10 = l11 & 3L;
    l8 = 0L;
    L201: {
     if (l11 + Long.MIN_VALUE < -9223372036854775804L) { break L201; }
     l5 = l11 & -4L;
     l8 = 0L;
     L202: while (true) {
      b[((int) (l11 = l6 + l8)) - 58912] = (byte) (b[((int) (l1 = l0 + l8)) - 58912] & 0xff);
      b[((int) (l11 + 1L)) - 58912] = (byte) (b[((int) (l1 + 1L)) - 58912] & 0xff);
      b[((int) (l11 + 2L)) - 58912] = (byte) (b[((int) (l1 + 2L)) - 58912] & 0xff);
      b[((int) (l11 + 3L)) - 58912] = (byte) (b[((int) (l1 + 3L)) - 58912] & 0xff);
      if (l5 != (l8 = l8 + 4L)) { continue L202; }
      break L202;
     }
     if (l10 == 0L) { break L196; }
    }
    l11 = l0 + l8;
    l8 = l4 + (l12 + l8);
    L203: while (true) {
     b[((int) l8) - 58912] = (byte) (b[((int) l11) - 58912] & 0xff);
     l8 = l8 + 1L;
     l11 = l11 + 1L;
     if ((l10 = l10 + -1L) != 0L) { continue L203; }
     break L196;
    }
   }
   if (l11 == 0L) { break L196; }
   m.copy((int) l6, (int) l0, (int) l11);
   l24 = 0;
   break L1;
  }
  l24 = 0;
 }
 m.g0 = l7 + 1328L;
 return l24;
}

static int f316(State m, long l0, long l1, long l2, long l3, long l4, long l5, long l6, int l7, long l8, long l9, long l10, long l11) {
 final byte[] b = m.bytes;
 long l12 = 0;
 long l13 = 0;
 long l14 = 0;
 long l15 = 0;
 int l16 = 0;
 int l17 = 0;
 m.g0 = l12 = m.g0 - 32L;
 L1: {
  if ((l13 = l12) < 16L) { break L1; }
  l16 = 8;
  L2: {
   if (l7 + Integer.MIN_VALUE > -2147483643) { break L2; }
   if (l7 == 4) { break L2; }
   L3: {
    final long t4 = l11;
    final long t5 = l12 = l3 - ((l3 != 0L) ? 1L : 0L);
    final int t6 = (l11 + Long.MIN_VALUE < l12 + Long.MIN_VALUE) ? 1 : 0;
    final long t7 = l12 = t6 != 0 ? t4 : t5;
    final long t8 = l9;
    final int t9 = (l12 + Long.MIN_VALUE < l9 + Long.MIN_VALUE) ? 1 : 0;
    if ((l14 = t9 != 0 ? t7 : t8) == 0L) { break L3; }
    l9 = l10 + ((l10 == 0L) ? 4096L : 0L);
    l3 = l8 + ((l8 == 0L) ? 4096L : 0L);
    l15 = l4 + ((l4 == 0L) ? 4096L : 0L);
    l12 = l2 + ((l2 == 0L) ? 4096L : 0L);
    l0 = l0 + ((l0 == 0L) ? 4096L : 0L);
    l17 = (l7 + Integer.MIN_VALUE < -2147483642) ? l7 : 0;
    l2 = l6 >>> 3L;
    l11 = l6 & 7L;
    L10: while (true) {
     l7 = 0;
     L11: {
      if ((l16 = ((l10 = (l11 >>> 3L) + l2) + Long.MIN_VALUE >= l5 + Long.MIN_VALUE) ? 1 : 0) != 0) { break L11; }
      l7 = b[((int) (l15 + l10)) - 58912] & 0xff;
     }
     l8 = Words.get64(b, ((int) (l12 + 8L)) - 58912);
     l4 = Words.get64(b, ((int) l12) - 58912);
     l10 = 0L;
     L12: {
      L13: {
       if (l16 != 0) { break L13; }
       if ((((l7 & 255) >>> (((int) l11) & 7)) & 1) != 0) { break L13; }
       l7 = 10;
       break L12;
      }
      l7 = 6;
      if (l8 + Long.MIN_VALUE < l4 + Long.MIN_VALUE) { break L12; }
      if (l1 + Long.MIN_VALUE < l8 + Long.MIN_VALUE) { break L12; }
      l8 = l8 - l4;
      l4 = l0 + l4;
      l7 = 8;
      L14: {
       L15: {
        L16: {
         L17: {
          L18: {
           L19: {
            switch ((int) ((l17 & 0xffffffffL) & 255L)) {
            case 1: break L18;
            case 2: break L17;
            case 3: break L16;
            case 4: break L12;
            case 5: break L15;
            default: break L19;
            }
           }
           Words.put64(b, ((int) l13) - 58888, 0L);
           Words.put64(b, ((int) l13) - 58896, 0L);
           Words.put64(b, ((int) l13) - 58904, 0L);
           l7 = Core2.f70(m, l4, l8, l13 + 8L);
           break L14;
          }
          Words.put64(b, ((int) l13) - 58888, 0L);
          Words.put64(b, ((int) l13) - 58896, 0L);
          Words.put64(b, ((int) l13) - 58904, 0L);
          l7 = Core2.f76(m, l4, l8, l13 + 8L);
          break L14;
         }
         Words.put64(b, ((int) l13) - 58888, 0L);
         Words.put64(b, ((int) l13) - 58896, 0L);
         Words.put64(b, ((int) l13) - 58904, 0L);
         l7 = Core2.f72(m, l4, l8, l13 + 8L);
         break L14;
        }
        Words.put64(b, ((int) l13) - 58888, 0L);
        Words.put64(b, ((int) l13) - 58896, 0L);
        Words.put64(b, ((int) l13) - 58904, 0L);
        l7 = Core2.f78(m, l4, l8, l13 + 8L);
        break L14;
       }
       Words.put64(b, ((int) l13) - 58888, 0L);
       Words.put64(b, ((int) l13) - 58896, 0L);
       Words.put64(b, ((int) l13) - 58904, 0L);
       l7 = Core2.f75(m, l4, l8, l13 + 8L);
      }
      l10 = Words.get64(b, ((int) l13) - 58904);
     }
     Words.put64(b, ((int) l3) - 58912, l10);
     Words.put32(b, ((int) l9) - 58912, l7);
     l11 = l11 + 1L;
     l3 = l3 + 8L;
     l12 = l12 + 8L;
     l9 = l9 + 4L;
     if (!((l14 = l14 + -1L) == 0L)) { continue L10; }
     break L10;
    }
   }
   l16 = 0;
  }
  m.g0 = l13 + 32L;
  final int t20 = l16;
  return t20;
 }
 throw State.trap();
}

static void f318(State m, long l0, long l1, long l2, long l3, long l4, long l5, long l6, long l7, long l8, long l9, long l10) {
 final byte[] b = m.bytes;
 long l11 = 0;
 long l12 = 0;
 long l13 = 0;
 int l14 = 0;
 int l15 = 0;
 int l16 = 0;
 int l17 = 0;
 m.g0 = l11 = m.g0 - 32L;
 L1: {
  if ((l11 = l11) < 16L) { break L1; }
  L2: {
   final long t3 = l10;
   final long t4 = l3 = l3 - ((l3 != 0L) ? 1L : 0L);
   final int t5 = (l10 + Long.MIN_VALUE < l3 + Long.MIN_VALUE) ? 1 : 0;
   final long t6 = l10 = t5 != 0 ? t3 : t4;
   final long t7 = l8;
   final int t8 = (l10 + Long.MIN_VALUE < l8 + Long.MIN_VALUE) ? 1 : 0;
   if ((l12 = t8 != 0 ? t6 : t7) == 0L) { break L2; }
   l9 = l9 + ((l9 == 0L) ? 4096L : 0L);
   l10 = l7 + ((l7 == 0L) ? 4096L : 0L);
   l13 = l4 + ((l4 == 0L) ? 4096L : 0L);
   l8 = l2 + ((l2 == 0L) ? 4096L : 0L);
   l0 = l0 + ((l0 == 0L) ? 4096L : 0L);
   l2 = l6 >>> 3L;
   l3 = l6 & 7L;
   L9: while (true) {
    l14 = 0;
    l15 = 0;
    L10: {
     if ((l16 = ((l7 = (l3 >>> 3L) + l2) + Long.MIN_VALUE >= l5 + Long.MIN_VALUE) ? 1 : 0) != 0) { break L10; }
     l15 = b[((int) (l13 + l7)) - 58912] & 0xff;
    }
    l7 = Words.get64(b, ((int) (l8 + 8L)) - 58912);
    l4 = Words.get64(b, ((int) l8) - 58912);
    L11: {
     L12: {
      L13: {
       if (l16 != 0) { break L13; }
       l16 = 10;
       if ((((l15 & 255) >>> (((int) l3) & 7)) & 1) == 0) { break L12; }
      }
      l16 = 6;
      if (l7 + Long.MIN_VALUE < l4 + Long.MIN_VALUE) { break L12; }
      l15 = 0;
      l17 = 0;
      if (l1 + Long.MIN_VALUE < l7 + Long.MIN_VALUE) { break L11; }
      Words.put64(b, ((int) l11) - 58888, 0L);
      Words.put64(b, ((int) l11) - 58896, 0L);
      Words.put64(b, ((int) l11) - 58904, 0L);
      Words.put64(b, ((int) l11) - 58912, 0L);
      l16 = Core2.f73(m, l0 + l4, l7 - l4, l11);
      l17 = Words.get32(b, ((int) l11) - 58904);
      l15 = Words.get32(b, ((int) l11) - 58908);
      l14 = Words.get32(b, ((int) l11) - 58912);
      break L11;
     }
     l15 = 0;
     l17 = 0;
    }
    Words.put32(b, ((int) l10) - 58912, l14);
    Words.put32(b, ((int) (l10 + 8L)) - 58912, l17);
    Words.put32(b, ((int) (l10 + 4L)) - 58912, l15);
    Words.put32(b, ((int) l9) - 58912, l16);
    l3 = l3 + 1L;
    l8 = l8 + 8L;
    l10 = l10 + 12L;
    l9 = l9 + 4L;
    if (!((l12 = l12 + -1L) == 0L)) { continue L9; }
    break L9;
   }
  }
  m.g0 = l11 + 32L;
  return;
 }
 throw State.trap();
}

static int f320(State m, int l0, int l1, int l2, int l3, long l4, long l5, long l6) {
 final byte[] b = m.bytes;
 long l7 = 0;
 long l8 = 0;
 long l9 = 0;
 long l10 = 0;
 long l11 = 0;
 long l12 = 0;
 long l13 = 0;
 int l14 = 0;
 int l15 = 0;
 m.g0 = l7 = m.g0 - 64L;
 L1: {
  L2: {
   L3: {
    if ((l7 = l7) < 16L) { break L3; }
    Words.put64(b, ((int) l6) - 58912, 0L);
    L4: {
     if (l3 + Integer.MIN_VALUE <= -2147483647) { break L4; }
     l14 = 8;
     break L1;
    }
    Words.put64(b, ((int) l7) - 58857, 0L);
    Words.put64(b, ((int) l7) - 58864, 0L);
    Words.put64(b, ((int) l7) - 58872, 0L);
    Words.put64(b, ((int) l7) - 58880, 0L);
    Words.put64(b, ((int) l7) - 58888, 0L);
    l14 = 11;
    if (l0 + Integer.MIN_VALUE > -2147418113) { break L1; }
    if (l1 + Integer.MIN_VALUE > -2147483393) { break L1; }
    if (l2 + Integer.MIN_VALUE > -2147483393) { break L1; }
    if (((l2 = (l2 + Integer.MIN_VALUE < -2147483392) ? l2 : 256) & 255) == 0) { break L1; }
    if ((((l15 = (l0 + Integer.MIN_VALUE < -2147418112) ? l0 : 65536) + -1) & 65535) + Integer.MIN_VALUE > -2147473650) { break L1; }
    if ((((l0 = (l1 + Integer.MIN_VALUE < -2147483392) ? l1 : 256) + -1) & 255) + Integer.MIN_VALUE > -2147483637) { break L1; }
    l3 = b[((int) ((l3 & 0xffffffffL) + 83500L)) - 58912] & 0xff;
    L5: {
     L6: {
      if ((l0 & 255) != 2) { break L6; }
      l14 = 28;
      if ((l15 & 3) != 0) { break L5; }
      final int t7 = (((int) (((l14 = l15 & 65535) & 0xffffffffL) % 400L)) != 0) ? 28 : 29;
      final int t8 = (int) ((l14 & 0xffffffffL) % 100L);
      l14 = t8 != 0 ? 29 : t7;
      break L5;
     }
     final int t9 = ((l14 = l0 & 13) == 9) ? 30 : 31;
     final int t10 = (l14 == 4) ? 1 : 0;
     l14 = t10 != 0 ? 30 : t9;
    }
    L11: {
     if (l14 + Integer.MIN_VALUE >= (l2 & 255) + Integer.MIN_VALUE) { break L11; }
     l14 = 11;
     break L1;
    }
    Core2.f64(m, l7 + 8L, l7 + 24L, l3, ((l2 << 24) | (l0 << 16)) | l15);
    l8 = Words.get64(b, ((int) l7) - 58904);
    Words.put64(b, ((int) l6) - 58912, l9 = Words.get64(b, ((int) l7) - 58896));
    L12: {
     if (l5 + Long.MIN_VALUE >= l9 + Long.MIN_VALUE) { break L12; }
     l14 = 6;
     break L1;
    }
    L13: {
     if (((l11 = l4 + (l10 = (l4 == 0L) ? 4096L : 0L)) - l8) + Long.MIN_VALUE >= l9 + Long.MIN_VALUE) { break L13; }
     l12 = l9 & 3L;
     l5 = 0L;
     if (l9 + Long.MIN_VALUE < -9223372036854775804L) { break L2; }
     l13 = l9 & -4L;
     l5 = 0L;
     L14: while (true) {
      b[((int) (l6 = l11 + l5)) - 58912] = (byte) (b[((int) (l9 = l8 + l5)) - 58912] & 0xff);
      b[((int) (l6 + 1L)) - 58912] = (byte) (b[((int) (l9 + 1L)) - 58912] & 0xff);
      b[((int) (l6 + 2L)) - 58912] = (byte) (b[((int) (l9 + 2L)) - 58912] & 0xff);
      b[((int) (l6 + 3L)) - 58912] = (byte) (b[((int) (l9 + 3L)) - 58912] & 0xff);
      if (l13 != (l5 = l5 + 4L)) { continue L14; }
      break L14;
     }
     if (!(l12 == 0L)) { break L2; }
     l14 = 0;
     break L1;
    }
    L15: {
     if (l9 == 0L) { break L15; }
     m.copy((int) l11, (int) l8, (int) l9);
    }
    l14 = 0;
    break L1;
   }
   throw State.trap();
  }
  l6 = l8 + l5;
  l4 = l4 + (l10 + l5);
  L16: while (true) {
   b[((int) l4) - 58912] = (byte) (b[((int) l6) - 58912] & 0xff);
   l4 = l4 + 1L;
   l6 = l6 + 1L;
   l14 = 0;
   if ((l12 = l12 + -1L) != 0L) { continue L16; }
   break L16;
  }
 }
 m.g0 = l7 + 64L;
 return l14;
}

static int f322(State m, long l0, int l1, int l2, long l3, long l4, long l5) {
 final byte[] b = m.bytes;
 long l6 = 0;
 long l7 = 0;
 long l8 = 0;
 long l9 = 0;
 long l10 = 0;
 long l11 = 0;
 int l12 = 0;
 int l13 = 0;
 m.g0 = l6 = m.g0 - 192L;
 L1: {
  L2: {
   L3: {
    if ((l6 = l6) < 16L) { break L3; }
    Words.put64(b, ((int) l5) - 58912, 0L);
    l12 = 0;
    L4: {
     if (l1 + Integer.MIN_VALUE > -2147483647) { break L4; }
     l12 = b[((int) ((l1 & 0xffffffffL) + 83500L)) - 58912] & 0xff;
    }
    l13 = 8;
    if (l2 + Integer.MIN_VALUE > -2147483633) { break L1; }
    if (l1 + Integer.MIN_VALUE > -2147483647) { break L1; }
    L5: {
     if ((l7 = (l0 ^ (l7 = l0 >> 63L)) - l7) + Long.MIN_VALUE < -8223372036854775808L) { break L5; }
     l13 = (l0 < 0L) ? 4 : 3;
     break L1;
    }
    m.fill((int) (l6 + 7L), 0, (int) 129L);
    Words.put32(b, ((int) l6) - 58724, ((((l2 << 7) & 256) | (l2 & 1)) | ((l2 << 14) & 65536)) | (l13 = (l2 << 21) & 16777216));
    b[((int) l6) - 58725] = (byte) l12;
    Words.put64(b, ((int) l6) - 58736, 0L);
    Words.put64(b, ((int) l6) - 58744, 129L);
    Words.put16(b, ((int) l6) - 58760, (short) 0);
    Words.put64(b, ((int) l6) - 58768, 0L);
    Words.put64(b, ((int) l6) - 58776, 0L);
    Words.put64(b, ((int) l6) - 58752, l6 + 7L);
    L6: {
     if (l0 > -1L) { break L6; }
     l1 = (l2 = ((l12 = l12 & 255) != 0) ? 36127 : 36000) | -128;
     l2 = (l2 >>> 6) | -128;
     L7: {
      L8: {
       if (l13 != 0) { break L8; }
       l0 = 3L;
       l13 = 232;
       break L7;
      }
      b[((int) l6) - 58894] = (byte) 137;
      Words.put16(b, ((int) l6) - 58896, (short) 48367);
      Words.put16(b, ((int) l6) - 58899, (short) 38374);
      b[((int) l6) - 58900] = (byte) l1;
      b[((int) l6) - 58901] = (byte) l2;
      b[((int) l6) - 58902] = (byte) 232;
      b[((int) l6) - 58897] = (byte) ((l12 == 1) ? -80 : -72);
      l0 = 12L;
      l1 = 136;
      l2 = 188;
      l13 = 239;
     }
     b[((int) l6) - 58903] = (byte) l1;
     b[((int) l6) - 58904] = (byte) l2;
     b[((int) l6) - 58905] = (byte) l13;
     Words.put64(b, ((int) l6) - 58736, l0);
    }
    Core2.f67(m, l6 + 136L, l7);
    Core2.f68(m, l6 + 160L, l6 + 187L, l6 + 136L);
    l7 = Words.get64(b, ((int) l6) - 58752);
    final int t9 = (int) l5;
    final long t10 = l0 = Words.get64(b, ((int) l6) - 58736);
    final int t11 = l13 = (Words.get64(b, ((int) l6) - 58744) + Long.MIN_VALUE < l0 + Long.MIN_VALUE) ? 1 : 0;
    Words.put64(b, t9 - 58912, l8 = t11 != 0 ? 0L : t10);
    L12: {
     if (l4 + Long.MIN_VALUE >= l8 + Long.MIN_VALUE) { break L12; }
     l13 = 6;
     break L1;
    }
    L13: {
     if (((l10 = l3 + (l9 = (l3 == 0L) ? 4096L : 0L)) - (l11 = l13 != 0 ? 83372L : l7)) + Long.MIN_VALUE >= l8 + Long.MIN_VALUE) { break L13; }
     l7 = l8 & 3L;
     l0 = 0L;
     if (l8 + Long.MIN_VALUE < -9223372036854775804L) { break L2; }
     l8 = l8 & -4L;
     l0 = 0L;
     L14: while (true) {
      b[((int) (l5 = l10 + l0)) - 58912] = (byte) (b[((int) (l4 = l11 + l0)) - 58912] & 0xff);
      b[((int) (l5 + 1L)) - 58912] = (byte) (b[((int) (l4 + 1L)) - 58912] & 0xff);
      b[((int) (l5 + 2L)) - 58912] = (byte) (b[((int) (l4 + 2L)) - 58912] & 0xff);
      b[((int) (l5 + 3L)) - 58912] = (byte) (b[((int) (l4 + 3L)) - 58912] & 0xff);
      if (l8 != (l0 = l0 + 4L)) { continue L14; }
      break L14;
     }
     if (!(l7 == 0L)) { break L2; }
     l13 = 0;
     break L1;
    }
    L15: {
     if (l8 == 0L) { break L15; }
     m.copy((int) l10, (int) l11, (int) l8);
    }
    l13 = 0;
    break L1;
   }
   throw State.trap();
  }
  l5 = l11 + l0;
  l0 = l3 + (l9 + l0);
  L16: while (true) {
   b[((int) l0) - 58912] = (byte) (b[((int) l5) - 58912] & 0xff);
   l0 = l0 + 1L;
   l5 = l5 + 1L;
   l13 = 0;
   if ((l7 = l7 + -1L) != 0L) { continue L16; }
   break L16;
  }
 }
 m.g0 = l6 + 192L;
 return l13;
}

static int f324(State m, int l0, int l1, long l2, long l3, long l4) {
 final byte[] b = m.bytes;
 long l5 = 0;
 long l6 = 0;
 long l7 = 0;
 long l8 = 0;
 long l9 = 0;
 long l10 = 0;
 long l11 = 0;
 int l12 = 0;
 int l13 = 0;
 m.g0 = l5 = m.g0 - 608L;
 L1: {
  L2: {
   L3: {
    if ((l5 = l5) < 16L) { break L3; }
    Words.put64(b, ((int) l4) - 58912, 0L);
    l12 = 8;
    if (l1 + Integer.MIN_VALUE > -2147483646) { break L1; }
    l13 = 44;
    L4: {
     L5: {
      L6: {
       L7: {
        L8: {
         L9: {
          L10: {
           L11: {
            L12: {
             L13: {
              L14: {
               L15: {
                L16: {
                 switch (l0 + 1) {
                 case 0: break L6;
                 case 1: break L2;
                 case 2: break L5;
                 case 3: break L4;
                 case 4: break L16;
                 case 5: break L15;
                 case 6: break L14;
                 case 7: break L13;
                 case 8: break L12;
                 case 9: break L11;
                 case 10: break L10;
                 case 11: break L9;
                 case 12: break L8;
                 case 13: break L7;
                 default: break L1;
                 }
                }
                l13 = 24;
                break L4;
               }
               l13 = 25;
               break L4;
              }
              l13 = 45;
              break L4;
             }
             l13 = 46;
             break L4;
            }
            l13 = 47;
            break L4;
           }
           l13 = 48;
           break L4;
          }
          l13 = 6;
          break L4;
         }
         l13 = 49;
         break L4;
        }
        l13 = 50;
        break L4;
       }
       l13 = 40;
       break L4;
      }
      l13 = 51;
      break L4;
     }
     l13 = 23;
    }
    m.fill((int) (l5 + 24L), 0, (int) 512L);
    Words.put64(b, ((int) l5) - 58896, 0L);
    Words.put64(b, ((int) l5) - 58904, 512L);
    Words.put64(b, ((int) l5) - 58912, l5 + 24L);
    Words.put32(b, ((int) l5) - 58375, 0);
    b[((int) l5) - 58376] = (byte) l1;
    Words.put32(b, ((int) l5) - 58372, 0);
    Words.put64(b, ((int) l5) - 58360, 0L);
    Words.put64(b, ((int) l5) - 58368, 83372L);
    Words.put64(b, ((int) l5) - 58352, 0L);
    Words.put64(b, ((int) l5) - 58344, 0L);
    Words.put64(b, ((int) l5) - 58312, 0L);
    Words.put64(b, ((int) l5) - 58320, 83372L);
    Words.put64(b, ((int) l5) - 58328, 0L);
    Words.put64(b, ((int) l5) - 58336, 83372L);
    Core2.f50(m, l5 + 536L, l5, l13);
    final int t17 = (int) l4;
    final long t18 = l6 = Words.get64(b, ((int) l5) - 58896);
    final int t19 = l12 = (l6 + Long.MIN_VALUE < -9223372036854775295L) ? 1 : 0;
    Words.put64(b, t17 - 58912, l6 = t19 != 0 ? t18 : 0L);
    L20: {
     if (l3 + Long.MIN_VALUE >= l6 + Long.MIN_VALUE) { break L20; }
     l12 = 6;
     break L1;
    }
    L21: {
     final long t22 = l8 = l2 + (l7 = (l2 == 0L) ? 4096L : 0L);
     final long t23 = l5 + 24L;
     final int t24 = l12;
     if ((t22 - (l9 = t24 != 0 ? t23 : 83372L)) + Long.MIN_VALUE >= l6 + Long.MIN_VALUE) { break L21; }
     l10 = l6 & 3L;
     l3 = 0L;
     L25: {
      if (l6 + Long.MIN_VALUE < -9223372036854775804L) { break L25; }
      l11 = l6 & -4L;
      l3 = 0L;
      L26: while (true) {
       b[((int) (l4 = l8 + l3)) - 58912] = (byte) (b[((int) (l6 = l9 + l3)) - 58912] & 0xff);
       b[((int) (l4 + 1L)) - 58912] = (byte) (b[((int) (l6 + 1L)) - 58912] & 0xff);
       b[((int) (l4 + 2L)) - 58912] = (byte) (b[((int) (l6 + 2L)) - 58912] & 0xff);
       b[((int) (l4 + 3L)) - 58912] = (byte) (b[((int) (l6 + 3L)) - 58912] & 0xff);
       if (l11 != (l3 = l3 + 4L)) { continue L26; }
       break L26;
      }
      if (l10 == 0L) { break L2; }
     }
     l4 = l9 + l3;
     l3 = l2 + (l7 + l3);
     L27: while (true) {
      b[((int) l3) - 58912] = (byte) (b[((int) l4) - 58912] & 0xff);
      l3 = l3 + 1L;
      l4 = l4 + 1L;
      if ((l10 = l10 + -1L) != 0L) { continue L27; }
      break L2;
     }
    }
    if (l6 == 0L) { break L2; }
    m.copy((int) l8, (int) l9, (int) l6);
    l12 = 0;
    break L1;
   }
   throw State.trap();
  }
  l12 = 0;
 }
 m.g0 = l5 + 608L;
 return l12;
}

static int f326(State m, long l0, long l1, long l2, long l3) {
 final byte[] b = m.bytes;
 long l4 = 0;
 long l5 = 0;
 long l6 = 0;
 long l7 = 0;
 long l8 = 0;
 long l9 = 0;
 int l10 = 0;
 m.g0 = l4 = m.g0 - 144L;
 L1: {
  L2: {
   L3: {
    if ((l4 = l4) < 16L) { break L3; }
    Words.put64(b, ((int) l3) - 58912, 0L);
    L4: {
     if ((l10 = Words.get32(b, ((int) (l0 + 32L)) - 58912)) + Integer.MIN_VALUE <= -2147483645) { break L4; }
     l10 = 8;
     break L1;
    }
    Words.put64(b, ((int) l4) - 58783, 0L);
    b[((int) l4) - 58784] = (byte) l10;
    Words.put64(b, ((int) l4) - 58776, 0L);
    Words.put64(b, ((int) l4) - 58808, Words.get64(b, ((int) l0) - 58904));
    Words.put64(b, ((int) l4) - 58816, Words.get64(b, ((int) l0) - 58912));
    Words.put64(b, ((int) l4) - 58792, Words.get64(b, ((int) (l0 + 24L)) - 58912));
    Words.put64(b, ((int) l4) - 58800, Words.get64(b, ((int) (l0 + 16L)) - 58912));
    m.fill((int) (l4 + 16L), 0, (int) 80L);
    Core2.f52(m, l4, l4 + 16L, l4 + 96L);
    l5 = Words.get64(b, ((int) l4) - 58912);
    Words.put64(b, ((int) l3) - 58912, l0 = Words.get64(b, ((int) l4) - 58904));
    L5: {
     if (l2 + Long.MIN_VALUE >= l0 + Long.MIN_VALUE) { break L5; }
     l10 = 6;
     break L1;
    }
    L6: {
     if (((l7 = l1 + (l6 = (l1 == 0L) ? 4096L : 0L)) - l5) + Long.MIN_VALUE >= l0 + Long.MIN_VALUE) { break L6; }
     l8 = l0 & 3L;
     l3 = 0L;
     L7: {
      if (l0 + Long.MIN_VALUE < -9223372036854775804L) { break L7; }
      l9 = l0 & -4L;
      l3 = 0L;
      L8: while (true) {
       b[((int) (l0 = l7 + l3)) - 58912] = (byte) (b[((int) (l2 = l5 + l3)) - 58912] & 0xff);
       b[((int) (l0 + 1L)) - 58912] = (byte) (b[((int) (l2 + 1L)) - 58912] & 0xff);
       b[((int) (l0 + 2L)) - 58912] = (byte) (b[((int) (l2 + 2L)) - 58912] & 0xff);
       b[((int) (l0 + 3L)) - 58912] = (byte) (b[((int) (l2 + 3L)) - 58912] & 0xff);
       if (l9 != (l3 = l3 + 4L)) { continue L8; }
       break L8;
      }
      if (l8 == 0L) { break L2; }
     }
     l0 = l5 + l3;
     l3 = l1 + (l6 + l3);
     L9: while (true) {
      b[((int) l3) - 58912] = (byte) (b[((int) l0) - 58912] & 0xff);
      l3 = l3 + 1L;
      l0 = l0 + 1L;
      if ((l8 = l8 + -1L) != 0L) { continue L9; }
      break L2;
     }
    }
    if (l0 == 0L) { break L2; }
    m.copy((int) l7, (int) l5, (int) l0);
    l10 = 0;
    break L1;
   }
   throw State.trap();
  }
  l10 = 0;
 }
 m.g0 = l4 + 144L;
 return l10;
}

static int f328(State m, long l0, long l1, long l2) {
 return Core2.f70(m, l0 + ((l0 == 0L) ? 4096L : 0L), l1, l2);
}

static int f330(State m, long l0, long l1, long l2) {
 return Core2.f72(m, l0 + ((l0 == 0L) ? 4096L : 0L), l1, l2);
}

static int f332(State m, long l0, long l1, long l2) {
 return Core2.f73(m, l0 + ((l0 == 0L) ? 4096L : 0L), l1, l2);
}

static int f334(State m, long l0, int l1, int l2, long l3, long l4, long l5) {
 final byte[] b = m.bytes;
 long l6 = 0;
 L1: {
  L2: {
   L3: {
    L4: {
     if ((l6 = m.g0) < 16L) { break L4; }
     if (l1 + Integer.MIN_VALUE > -2147483647) { break L3; }
     if (l2 + Integer.MIN_VALUE > -2147483633) { break L2; }
     L5: {
      if (l0 + Long.MIN_VALUE <= -8223372036854775809L) { break L5; }
      Words.put64(b, ((int) l5) - 58912, 0L);
      m.g0 = l6;
      return 3;
     }
     l1 = Core2.f74(m, l0, b[((int) ((l1 & 0xffffffffL) + 83500L)) - 58912] & 0xff, ((((l2 << 7) & 256) | (l2 & 1)) | ((l2 << 14) & 65536)) | ((l2 << 21) & 16777216), l3 + ((l3 == 0L) ? 4096L : 0L), l4, l5);
     m.g0 = l6;
     final int t6 = l1;
     return t6;
    }
    throw State.trap();
   }
   Words.put64(b, ((int) l5) - 58912, 0L);
   break L1;
  }
  Words.put64(b, ((int) l5) - 58912, 0L);
 }
 m.g0 = l6;
 return 8;
}

static int f336(State m, long l0, long l1, long l2, long l3, long l4, int l5, int l6, long l7, long l8, long l9, long l10, long l11, long l12, long l13) {
 final byte[] b = m.bytes;
 long l14 = 0;
 long l15 = 0;
 long l16 = 0;
 long l17 = 0;
 long l18 = 0;
 long l19 = 0;
 long l20 = 0;
 long l21 = 0;
 long l22 = 0;
 long l23 = 0;
 int l24 = 0;
 int l25 = 0;
 int l26 = 0;
 int l27 = 0;
 int l28 = 0;
 int l29 = 0;
 int l30 = 0;
 int l31 = 0;
 m.g0 = l14 = m.g0 - 192L;
 L1: {
  L2: {
   L3: {
    if ((l15 = l14) < 16L) { break L3; }
    l24 = 0;
    L4: {
     if (l5 + Integer.MIN_VALUE > -2147483647) { break L4; }
     l24 = b[((int) ((l5 & 0xffffffffL) + 83500L)) - 58912] & 0xff;
    }
    if (l6 + Integer.MIN_VALUE > -2147483633) { break L2; }
    if (l5 + Integer.MIN_VALUE > -2147483647) { break L2; }
    m.fill((int) (l15 + 7L), 0, (int) 129L);
    l16 = 0L;
    L5: {
     final long t6 = l12;
     final long t7 = l14 = l8 - ((l8 != 0L) ? 1L : 0L);
     final int t8 = (l12 + Long.MIN_VALUE < l14 + Long.MIN_VALUE) ? 1 : 0;
     final long t9 = l14 = t8 != 0 ? t6 : t7;
     final long t10 = l1;
     final int t11 = (l14 + Long.MIN_VALUE < l1 + Long.MIN_VALUE) ? 1 : 0;
     if ((l17 = t11 != 0 ? t9 : t10) == 0L) { break L5; }
     l18 = l11 + ((l11 == 0L) ? 4096L : 0L);
     l19 = l9 + ((l9 == 0L) ? 4096L : 0L);
     l20 = l2 + ((l2 == 0L) ? 4096L : 0L);
     l21 = l0 + ((l0 == 0L) ? 4096L : 0L);
     l26 = ((((l6 << 7) & 256) | (l6 & 1)) | ((l6 << 14) & 65536)) | (l25 = (l6 << 21) & 16777216);
     l27 = ((l5 = l24 & 255) == 1) ? -80 : -72;
     l22 = l4 >>> 3L;
     l4 = l4 & 7L;
     l28 = (l5 = l5 != 0 ? 36127 : 36000) | -128;
     l29 = (l5 >>> 6) | -128;
     l0 = Words.get64(b, ((int) (l23 = l7 + ((l7 == 0L) ? 4096L : 0L))) - 58912);
     l16 = 0L;
     L12: while (true) {
      l2 = l0;
      l12 = Words.get64(b, ((int) (l21 + (l16 << 3L))) - 58912);
      L13: {
       L14: {
        if ((l8 = ((l14 = l16 + l4) >>> 3L) + l22) + Long.MIN_VALUE >= l3 + Long.MIN_VALUE) { break L14; }
        if ((((b[((int) (l20 + l8)) - 58912] & 0xff) >>> (((int) l14) & 7)) & 1) != 0) { break L14; }
        l14 = 0L;
        l11 = 83372L;
        l5 = 10;
        break L13;
       }
       L15: {
        if ((l14 = (l12 ^ (l14 = l12 >> 63L)) - l14) + Long.MIN_VALUE < -8223372036854775808L) { break L15; }
        l14 = 0L;
        l5 = (l12 < 0L) ? 4 : 3;
        l11 = 83372L;
        break L13;
       }
       Words.put32(b, ((int) l15) - 58724, l26);
       b[((int) l15) - 58725] = (byte) l24;
       Words.put64(b, ((int) l15) - 58736, 0L);
       Words.put64(b, ((int) l15) - 58744, 129L);
       l5 = 0;
       Words.put16(b, ((int) l15) - 58760, (short) 0);
       Words.put64(b, ((int) l15) - 58768, 0L);
       Words.put64(b, ((int) l15) - 58776, 0L);
       Words.put64(b, ((int) l15) - 58752, l15 + 7L);
       L16: {
        if (l12 > -1L) { break L16; }
        L17: {
         L18: {
          if (l25 != 0) { break L18; }
          l12 = 3L;
          l6 = 232;
          l30 = l29;
          l31 = l28;
          break L17;
         }
         b[((int) l15) - 58894] = (byte) 137;
         Words.put16(b, ((int) l15) - 58896, (short) 48367);
         b[((int) l15) - 58897] = (byte) l27;
         Words.put16(b, ((int) l15) - 58899, (short) 38374);
         b[((int) l15) - 58900] = (byte) l28;
         b[((int) l15) - 58901] = (byte) l29;
         b[((int) l15) - 58902] = (byte) 232;
         l12 = 12L;
         l31 = 136;
         l30 = 188;
         l6 = 239;
        }
        b[((int) l15) - 58903] = (byte) l31;
        b[((int) l15) - 58904] = (byte) l30;
        b[((int) l15) - 58905] = (byte) l6;
        Words.put64(b, ((int) l15) - 58736, l12);
       }
       Core2.f67(m, l15 + 136L, l14);
       Core2.f68(m, l15 + 160L, l15 + 187L, l15 + 136L);
       final long t19 = Words.get64(b, ((int) l15) - 58752);
       final int t20 = l6 = (Words.get64(b, ((int) l15) - 58744) + Long.MIN_VALUE < (l14 = Words.get64(b, ((int) l15) - 58736)) + Long.MIN_VALUE) ? 1 : 0;
       l11 = t20 != 0 ? 83372L : t19;
       l14 = l6 != 0 ? 0L : l14;
      }
      if (l10 + Long.MIN_VALUE < l2 + Long.MIN_VALUE) { break L5; }
      if ((l10 - l2) + Long.MIN_VALUE < l14 + Long.MIN_VALUE) { break L5; }
      l0 = l14 + l2;
      L21: {
       L22: {
        if (((l9 = l19 + l2) - l11) + Long.MIN_VALUE >= l14 + Long.MIN_VALUE) { break L22; }
        l1 = l14 & 3L;
        l12 = 0L;
        L23: {
         if (l14 + Long.MIN_VALUE < -9223372036854775804L) { break L23; }
         l7 = l14 & -4L;
         l12 = 0L;
         L24: while (true) {
          b[((int) (l14 = l9 + l12)) - 58912] = (byte) (b[((int) (l8 = l11 + l12)) - 58912] & 0xff);
          b[((int) (l14 + 1L)) - 58912] = (byte) (b[((int) (l8 + 1L)) - 58912] & 0xff);
          b[((int) (l14 + 2L)) - 58912] = (byte) (b[((int) (l8 + 2L)) - 58912] & 0xff);
          b[((int) (l14 + 3L)) - 58912] = (byte) (b[((int) (l8 + 3L)) - 58912] & 0xff);
          if (l7 != (l12 = l12 + 4L)) { continue L24; }
          break L24;
         }
         if (l1 == 0L) { break L21; }
        }
        l14 = l11 + l12;
        l12 = l19 + (l2 + l12);
        L25: while (true) {
         b[((int) l12) - 58912] = (byte) (b[((int) l14) - 58912] & 0xff);
         l12 = l12 + 1L;
         l14 = l14 + 1L;
         if ((l1 = l1 + -1L) != 0L) { continue L25; }
         break L21;
        }
       }
       if (l14 == 0L) { break L21; }
       m.copy((int) l9, (int) l11, (int) l14);
      }
      Words.put32(b, ((int) (l18 + (l16 << 2L))) - 58912, l5);
      Words.put64(b, ((int) (l23 + ((l16 = l16 + 1L) << 3L))) - 58912, l0);
      if (l16 != l17) { continue L12; }
      break L12;
     }
     l16 = l17;
    }
    Words.put64(b, ((int) l13) - 58912, l16);
    l5 = (l16 == l17) ? 0 : 6;
    break L1;
   }
   throw State.trap();
  }
  Words.put64(b, ((int) l13) - 58912, 0L);
  l5 = 8;
 }
 m.g0 = l15 + 192L;
 return l5;
}

static int f338(State m, long l0, long l1, long l2, long l3, long l4, int l5, long l6, long l7, long l8, long l9, long l10, long l11, long l12) {
 final byte[] b = m.bytes;
 long l13 = 0;
 long l14 = 0;
 long l15 = 0;
 long l16 = 0;
 long l17 = 0;
 long l18 = 0;
 long l19 = 0;
 long l20 = 0;
 long l21 = 0;
 long l22 = 0;
 int l23 = 0;
 int l24 = 0;
 int l25 = 0;
 int l26 = 0;
 int l27 = 0;
 m.g0 = l13 = m.g0 - 64L;
 L1: {
  L2: {
   L3: {
    if ((l14 = l13) < 16L) { break L3; }
    if (l5 + Integer.MIN_VALUE > -2147483647) { break L2; }
    l15 = 0L;
    Words.put64(b, ((int) l14) - 58857, 0L);
    Words.put64(b, ((int) l14) - 58864, 0L);
    Words.put64(b, ((int) l14) - 58872, 0L);
    Words.put64(b, ((int) l14) - 58880, 0L);
    Words.put64(b, ((int) l14) - 58888, 0L);
    L4: {
     final long t5 = l11;
     final long t6 = l13 = l7 - ((l7 != 0L) ? 1L : 0L);
     final int t7 = (l11 + Long.MIN_VALUE < l13 + Long.MIN_VALUE) ? 1 : 0;
     final long t8 = l13 = t7 != 0 ? t5 : t6;
     final long t9 = l1;
     final int t10 = (l13 + Long.MIN_VALUE < l1 + Long.MIN_VALUE) ? 1 : 0;
     if ((l16 = t10 != 0 ? t8 : t9) == 0L) { break L4; }
     l17 = l10 + ((l10 == 0L) ? 4096L : 0L);
     l18 = l8 + ((l8 == 0L) ? 4096L : 0L);
     l19 = l2 + ((l2 == 0L) ? 4096L : 0L);
     l20 = l0 + ((l0 == 0L) ? 4096L : 0L);
     l23 = b[((int) ((l5 & 0xffffffffL) + 83500L)) - 58912] & 0xff;
     l21 = l4 >>> 3L;
     l4 = l4 & 7L;
     l0 = Words.get64(b, ((int) (l22 = l6 + ((l6 == 0L) ? 4096L : 0L))) - 58912);
     l15 = 0L;
     L11: while (true) {
      l2 = l0;
      l24 = Words.get32(b, ((int) (l13 = l20 + (l15 * 12L))) - 58904);
      l25 = Words.get32(b, ((int) l13) - 58908);
      l26 = Words.get32(b, ((int) l13) - 58912);
      L12: {
       L13: {
        if ((l11 = ((l13 = l15 + l4) >>> 3L) + l21) + Long.MIN_VALUE >= l3 + Long.MIN_VALUE) { break L13; }
        if ((((b[((int) (l19 + l11)) - 58912] & 0xff) >>> (((int) l13) & 7)) & 1) != 0) { break L13; }
        l13 = 0L;
        l10 = 83372L;
        l5 = 10;
        break L12;
       }
       l13 = 0L;
       l10 = 83372L;
       l5 = 11;
       if (l26 + Integer.MIN_VALUE > -2147418113) { break L12; }
       if (l25 + Integer.MIN_VALUE > -2147483393) { break L12; }
       if (l24 + Integer.MIN_VALUE > -2147483393) { break L12; }
       if (((l24 = (l24 + Integer.MIN_VALUE < -2147483392) ? l24 : 256) & 255) == 0) { break L12; }
       if ((((l27 = (l26 + Integer.MIN_VALUE < -2147418112) ? l26 : 65536) + -1) & 65535) + Integer.MIN_VALUE > -2147473650) { break L12; }
       if ((((l26 = (l25 + Integer.MIN_VALUE < -2147483392) ? l25 : 256) + -1) & 255) + Integer.MIN_VALUE > -2147483637) { break L12; }
       L14: {
        L15: {
         if ((l26 & 255) != 2) { break L15; }
         l5 = 28;
         if ((l27 & 3) != 0) { break L14; }
         final int t16 = (((int) (((l5 = l27 & 65535) & 0xffffffffL) % 400L)) != 0) ? 28 : 29;
         final int t17 = (int) ((l5 & 0xffffffffL) % 100L);
         l5 = t17 != 0 ? 29 : t16;
         break L14;
        }
        final int t18 = ((l5 = l26 & 13) == 9) ? 30 : 31;
        final int t19 = (l5 == 4) ? 1 : 0;
        l5 = t19 != 0 ? 30 : t18;
       }
       L20: {
        if (l5 + Integer.MIN_VALUE >= (l24 & 255) + Integer.MIN_VALUE) { break L20; }
        l5 = 11;
        break L12;
       }
       Core2.f64(m, l14 + 8L, l14 + 24L, l23, ((l24 << 24) | (l26 << 16)) | l27);
       l5 = 0;
       l13 = Words.get64(b, ((int) l14) - 58896);
       l10 = Words.get64(b, ((int) l14) - 58904);
      }
      if (l9 + Long.MIN_VALUE < l2 + Long.MIN_VALUE) { break L4; }
      if ((l9 - l2) + Long.MIN_VALUE < l13 + Long.MIN_VALUE) { break L4; }
      l0 = l13 + l2;
      L21: {
       L22: {
        if (((l8 = l18 + l2) - l10) + Long.MIN_VALUE >= l13 + Long.MIN_VALUE) { break L22; }
        l1 = l13 & 3L;
        l11 = 0L;
        L23: {
         if (l13 + Long.MIN_VALUE < -9223372036854775804L) { break L23; }
         l6 = l13 & -4L;
         l11 = 0L;
         L24: while (true) {
          b[((int) (l13 = l8 + l11)) - 58912] = (byte) (b[((int) (l7 = l10 + l11)) - 58912] & 0xff);
          b[((int) (l13 + 1L)) - 58912] = (byte) (b[((int) (l7 + 1L)) - 58912] & 0xff);
          b[((int) (l13 + 2L)) - 58912] = (byte) (b[((int) (l7 + 2L)) - 58912] & 0xff);
          b[((int) (l13 + 3L)) - 58912] = (byte) (b[((int) (l7 + 3L)) - 58912] & 0xff);
          if (l6 != (l11 = l11 + 4L)) { continue L24; }
          break L24;
         }
         if (l1 == 0L) { break L21; }
        }
        l13 = l10 + l11;
        l11 = l18 + (l2 + l11);
        L25: while (true) {
         b[((int) l11) - 58912] = (byte) (b[((int) l13) - 58912] & 0xff);
         l11 = l11 + 1L;
         l13 = l13 + 1L;
         if ((l1 = l1 + -1L) != 0L) { continue L25; }
         break L21;
        }
       }
       if (l13 == 0L) { break L21; }
       m.copy((int) l8, (int) l10, (int) l13);
      }
      Words.put32(b, ((int) (l17 + (l15 << 2L))) - 58912, l5);
      Words.put64(b, ((int) (l22 + ((l15 = l15 + 1L) << 3L))) - 58912, l0);
      if (l15 != l16) { continue L11; }
      break L11;
     }
     l15 = l16;
    }
    Words.put64(b, ((int) l12) - 58912, l15);
    l5 = (l15 == l16) ? 0 : 6;
    break L1;
   }
   throw State.trap();
  }
  Words.put64(b, ((int) l12) - 58912, 0L);
  l5 = 8;
 }
 m.g0 = l14 + 64L;
 return l5;
}

static int f340(State m, long l0, long l1, long l2) {
 return Core2.f75(m, l0 + ((l0 == 0L) ? 4096L : 0L), l1, l2);
}

static int f342(State m, long l0, long l1, long l2) {
 return Core2.f76(m, l0 + ((l0 == 0L) ? 4096L : 0L), l1, l2);
}

static int f344(State m, long l0, long l1, long l2) {
 return Core2.f78(m, l0 + ((l0 == 0L) ? 4096L : 0L), l1, l2);
}

static int f346(State m, long l0, long l1, long l2, long l3, long l4, long l5) {
 final byte[] b = m.bytes;
 long l6 = 0;
 long l7 = 0;
 long l8 = 0;
 int l9 = 0;
 int l10 = 0;
 m.g0 = l6 = m.g0 - 112L;
 L1: {
  if ((l7 = l6) < 16L) { break L1; }
  Words.put64(b, ((int) l4) - 58864, 0L);
  Words.put64(b, ((int) l4) - 58872, 0L);
  Words.put64(b, ((int) l4) - 58880, 0L);
  Words.put64(b, ((int) l4) - 58888, 0L);
  Words.put64(b, ((int) l4) - 58896, 0L);
  Words.put64(b, ((int) l4) - 58904, 0L);
  Words.put64(b, ((int) l4) - 58912, 0L);
  Words.put64(b, ((int) l5) - 58864, 0L);
  Words.put64(b, ((int) l5) - 58872, 0L);
  Words.put64(b, ((int) l5) - 58880, 0L);
  Words.put64(b, ((int) l5) - 58888, 0L);
  Words.put64(b, ((int) l5) - 58896, 0L);
  Words.put64(b, ((int) l5) - 58904, 0L);
  Words.put64(b, ((int) l5) - 58912, 0L);
  l6 = l1;
  l0 = l8 = l0 + ((l0 == 0L) ? 4096L : 0L);
  L2: {
   L3: {
    L4: {
     L5: {
      if (l1 + Long.MIN_VALUE < -9223372036854775804L) { break L5; }
      l0 = l8;
      l6 = l1;
      L6: while (true) {
       if (((Words.get32(b, ((int) l0) - 58912) + 16776990) & 12632312) != 8421376) { break L4; }
       l0 = l0 + 3L;
       if ((l6 = l6 + -3L) + Long.MIN_VALUE > -9223372036854775805L) { continue L6; }
       break L6;
      }
     }
     if (l6 + Long.MIN_VALUE > -9223372036854775805L) { break L4; }
     L7: {
      switch ((int) l6) {
      case 1: case 2: break L4;
      case 3: break L7;
      default: break L3;
      }
     }
     if (((((Words.get16(b, ((int) l0) - 58912) & 0xffff) | ((b[((int) (l0 + 2L)) - 58912] & 0xff) << 16)) + 16776990) & 12632312) == 8421376) { break L3; }
    }
    if (Core1.f6(m, l8, l1) != 0) { break L3; }
    l9 = 5;
    break L2;
   }
   l6 = l3;
   l0 = l2 = l2 + ((l2 == 0L) ? 4096L : 0L);
   L8: {
    L9: {
     L10: {
      if (l3 + Long.MIN_VALUE < -9223372036854775804L) { break L10; }
      l0 = l2;
      l6 = l3;
      L11: while (true) {
       if (((Words.get32(b, ((int) l0) - 58912) + 16776990) & 12632312) != 8421376) { break L9; }
       l0 = l0 + 3L;
       if ((l6 = l6 + -3L) + Long.MIN_VALUE > -9223372036854775805L) { continue L11; }
       break L11;
      }
     }
     if (l6 + Long.MIN_VALUE > -9223372036854775805L) { break L9; }
     L12: {
      switch ((int) l6) {
      case 1: case 2: break L9;
      case 3: break L12;
      default: break L8;
      }
     }
     if (((((Words.get16(b, ((int) l0) - 58912) & 0xffff) | ((b[((int) (l0 + 2L)) - 58912] & 0xff) << 16)) + 16776990) & 12632312) == 8421376) { break L8; }
    }
    if (Core1.f6(m, l2, l3) != 0) { break L8; }
    l9 = 5;
    break L2;
   }
   l0 = l5 + 36L;
   l10 = 0;
   m.fill((int) l7, 0, (int) 112L);
   Core2.f79(m, l7, l8, l1, l2, l3);
   L13: {
    L14: {
     if ((b[((int) l7) - 58912] & 0xff) != 1) { break L14; }
     Words.put32(b, ((int) l4) - 58880, b[((int) l7) - 58864] & 0xff);
     Words.put64(b, ((int) l4) - 58888, Words.get64(b, ((int) l7) - 58872));
     Words.put64(b, ((int) l4) - 58896, Words.get64(b, ((int) l7) - 58880));
     Words.put64(b, ((int) (l6 = l4 + 36L)) - 58912, 0L);
     Words.put64(b, ((int) l6) - 58904, 0L);
     l9 = 0;
     Words.put32(b, ((int) l6) - 58896, 0);
     final int t15 = (int) l4;
     final long t16 = 0L - (l6 = Words.get64(b, ((int) l7) - 58896));
     final long t17 = l6;
     final int t18 = l10 = ((l1 = Words.get64(b, ((int) l7) - 58888)) < 0L) ? 1 : 0;
     final long t19 = 0L - (l3 = t18 != 0 ? t16 : t17);
     final long t20 = l3;
     final int t21 = l10;
     Words.put64(b, t15 - 58912, t21 != 0 ? t19 : t20);
     final int t22 = (int) l4;
     final long t23 = 0L - (l1 + ((l6 != 0L) ? 1L : 0L));
     final long t24 = l1;
     final int t25 = l10;
     final long t26 = 0L - ((l6 = t25 != 0 ? t23 : t24) + ((l3 != 0L) ? 1L : 0L));
     final long t27 = l6;
     final int t28 = l10;
     Words.put64(b, t22 - 58904, t28 != 0 ? t26 : t27);
     Words.put32(b, ((int) l0) - 58896, 0);
     Words.put64(b, ((int) l0) - 58904, 0L);
     Words.put64(b, ((int) l0) - 58912, 0L);
     final long t29 = 0L - (l0 = Words.get64(b, ((int) l7) - 58848));
     final long t30 = l0;
     final int t31 = l10 = ((l4 = Words.get64(b, ((int) l7) - 58840)) < 0L) ? 1 : 0;
     final long t32 = 0L - (l1 = t31 != 0 ? t29 : t30);
     final long t33 = l1;
     final int t34 = l10;
     l6 = t34 != 0 ? t32 : t33;
     final long t35 = 0L - (l4 + ((l0 != 0L) ? 1L : 0L));
     final long t36 = l4;
     final int t37 = l10;
     final long t38 = 0L - ((l0 = t37 != 0 ? t35 : t36) + ((l1 != 0L) ? 1L : 0L));
     final long t39 = l0;
     final int t40 = l10;
     l0 = t40 != 0 ? t38 : t39;
     l10 = b[((int) l7) - 58816] & 0xff;
     l4 = Words.get64(b, ((int) l7) - 58824);
     l1 = Words.get64(b, ((int) l7) - 58832);
     break L13;
    }
    l6 = 0L;
    Words.put64(b, ((int) l4) - 58864, 0L);
    Words.put64(b, ((int) l4) - 58872, 0L);
    Words.put64(b, ((int) l4) - 58880, 0L);
    Words.put64(b, ((int) l4) - 58888, 0L);
    Words.put64(b, ((int) l4) - 58896, 0L);
    Words.put64(b, ((int) l4) - 58904, 0L);
    Words.put64(b, ((int) l4) - 58912, 0L);
    Words.put32(b, ((int) l0) - 58896, 0);
    Words.put64(b, ((int) l0) - 58904, 0L);
    Words.put64(b, ((int) l0) - 58912, 0L);
    l9 = 2;
    l0 = 0L;
    l1 = 0L;
    l4 = 0L;
   }
   Words.put32(b, ((int) l5) - 58880, l10);
   Words.put64(b, ((int) l5) - 58888, l4);
   Words.put64(b, ((int) l5) - 58896, l1);
   Words.put64(b, ((int) l5) - 58904, l0);
   Words.put64(b, ((int) l5) - 58912, l6);
  }
  m.g0 = l7 + 112L;
  final int t41 = l9;
  return t41;
 }
 throw State.trap();
}

static int f348(State m, long l0, long l1, long l2, int l3, int l4, long l5, long l6, long l7) {
 final byte[] b = m.bytes;
 long l8 = 0;
 L1: {
  L2: {
   L3: {
    if ((l8 = m.g0) < 16L) { break L3; }
    if (l3 + Integer.MIN_VALUE > -2147483647) { break L2; }
    L4: {
     if (l4 + Integer.MIN_VALUE >= -2147483632) { break L4; }
     l3 = Core3.f106(m, l0 + ((l0 == 0L) ? 4096L : 0L), l1, l2, l3, l4, l5 + ((l5 == 0L) ? 4096L : 0L), l6, l7);
     m.g0 = l8;
     final int t5 = l3;
     return t5;
    }
    Words.put64(b, ((int) l7) - 58912, 0L);
    break L1;
   }
   throw State.trap();
  }
  Words.put64(b, ((int) l7) - 58912, 0L);
 }
 m.g0 = l8;
 return 8;
}

static int f350(State m, long l0, long l1, long l2, int l3, int l4, long l5, long l6, long l7) {
 final byte[] b = m.bytes;
 long l8 = 0;
 L1: {
  L2: {
   L3: {
    L4: {
     if ((l8 = m.g0) < 16L) { break L4; }
     if (l3 + Integer.MIN_VALUE > -2147483647) { break L3; }
     if (l4 + Integer.MIN_VALUE >= -2147483632) { break L2; }
     L5: {
      if (l2 != l1) { break L5; }
      Words.put64(b, ((int) l7) - 58912, 0L);
      m.g0 = l8;
      return 0;
     }
     l3 = Core3.f107(m, l0 + ((l0 == 0L) ? 4096L : 0L), l1, l2, l3, l4, l5 + ((l5 == 0L) ? 4096L : 0L), l6, l7);
     m.g0 = l8;
     final int t6 = l3;
     return t6;
    }
    throw State.trap();
   }
   Words.put64(b, ((int) l7) - 58912, 0L);
   break L1;
  }
  Words.put64(b, ((int) l7) - 58912, 0L);
 }
 m.g0 = l8;
 return 8;
}

static int f352(State m, long l0, long l1, long l2, int l3, int l4, long l5, long l6, long l7) {
 final byte[] b = m.bytes;
 long l8 = 0;
 long l9 = 0;
 long l10 = 0;
 L1: {
  L2: {
   if ((l8 = m.g0) < 16L) { break L2; }
   if (l3 + Integer.MIN_VALUE > -2147483647) { break L1; }
   if (l4 + Integer.MIN_VALUE > -2147483633) { break L1; }
   l9 = l1;
   l0 = l10 = l0 + ((l0 == 0L) ? 4096L : 0L);
   L3: {
    L4: {
     L5: {
      L6: {
       if (l1 + Long.MIN_VALUE < -9223372036854775804L) { break L6; }
       l0 = l10;
       l9 = l1;
       L7: while (true) {
        if (((Words.get32(b, ((int) l0) - 58912) + 16776990) & 12632312) != 8421376) { break L5; }
        l0 = l0 + 3L;
        if ((l9 = l9 + -3L) + Long.MIN_VALUE > -9223372036854775805L) { continue L7; }
        break L7;
       }
      }
      if (l9 + Long.MIN_VALUE > -9223372036854775805L) { break L5; }
      L8: {
       switch ((int) l9) {
       case 1: case 2: break L5;
       case 3: break L8;
       default: break L4;
       }
      }
      if (((((Words.get16(b, ((int) l0) - 58912) & 0xffff) | ((b[((int) (l0 + 2L)) - 58912] & 0xff) << 16)) + 16776990) & 12632312) == 8421376) { break L4; }
     }
     if (Core1.f6(m, l10, l1) == 0) { break L3; }
    }
    l3 = Core3.f117(m, l10, l1, l2, (l3 + Integer.MIN_VALUE < -2147483646) ? l3 : 0, (l4 + Integer.MIN_VALUE < -2147483632) ? l4 : 0, l5 + ((l5 == 0L) ? 4096L : 0L), l6, l7);
    m.g0 = l8;
    final int t9 = l3;
    return t9;
   }
   Words.put64(b, ((int) l7) - 58912, 0L);
   m.g0 = l8;
   return 5;
  }
  throw State.trap();
 }
 Words.put64(b, ((int) l7) - 58912, 0L);
 m.g0 = l8;
 return 8;
}

static int f354(State m, long l0, long l1, long l2, int l3, int l4, long l5, long l6, long l7) {
 final byte[] b = m.bytes;
 long l8 = 0;
 L1: {
  L2: {
   if ((l8 = m.g0) < 16L) { break L2; }
   if (l3 + Integer.MIN_VALUE > -2147483647) { break L1; }
   if (l4 + Integer.MIN_VALUE > -2147483633) { break L1; }
   l3 = Core3.f117(m, l0 + ((l0 == 0L) ? 4096L : 0L), l1, l2, l3, l4, l5 + ((l5 == 0L) ? 4096L : 0L), l6, l7);
   m.g0 = l8;
   final int t3 = l3;
   return t3;
  }
  throw State.trap();
 }
 Words.put64(b, ((int) l7) - 58912, 0L);
 m.g0 = l8;
 return 8;
}

static int f356(State m, long l0, long l1, long l2, int l3, int l4, long l5, long l6, long l7) {
 return Core6.f183(m, l0 + ((l0 == 0L) ? 4096L : 0L), l1, l2, l3, l4, l5 + ((l5 == 0L) ? 4096L : 0L), l6, l7);
}

static int f358(State m, long l0, long l1, long l2, int l3, int l4, long l5, long l6, long l7) {
 final byte[] b = m.bytes;
 long l8 = 0;
 long l9 = 0;
 long l10 = 0;
 L1: {
  L2: {
   if ((l8 = m.g0) < 16L) { break L2; }
   if (l3 + Integer.MIN_VALUE > -2147483647) { break L1; }
   if (l4 + Integer.MIN_VALUE > -2147483633) { break L1; }
   l0 = l9 = l0 + ((l0 == 0L) ? 4096L : 0L);
   l10 = l1;
   L3: {
    L4: {
     L5: {
      L6: {
       if (l1 + Long.MIN_VALUE < -9223372036854775804L) { break L6; }
       L7: while (true) {
        if (((Words.get32(b, ((int) l0) - 58912) + 16776990) & 12632312) != 8421376) { break L5; }
        l0 = l0 + 3L;
        if ((l10 = l10 + -3L) + Long.MIN_VALUE > -9223372036854775805L) { continue L7; }
        break L7;
       }
      }
      if (l10 + Long.MIN_VALUE > -9223372036854775805L) { break L5; }
      L8: {
       switch ((int) l10) {
       case 1: case 2: break L5;
       case 3: break L8;
       default: break L4;
       }
      }
      if (((((Words.get16(b, ((int) l0) - 58912) & 0xffff) | ((b[((int) (l0 + 2L)) - 58912] & 0xff) << 16)) + 16776990) & 12632312) == 8421376) { break L4; }
     }
     if (Core1.f6(m, l9, l1) == 0) { break L3; }
    }
    l3 = Core6.f183(m, l9, l1, l2, l3, l4, l5 + ((l5 == 0L) ? 4096L : 0L), l6, l7);
    m.g0 = l8;
    final int t9 = l3;
    return t9;
   }
   Words.put64(b, ((int) l7) - 58912, 0L);
   m.g0 = l8;
   return 5;
  }
  throw State.trap();
 }
 Words.put64(b, ((int) l7) - 58912, 0L);
 m.g0 = l8;
 return 8;
}

static int f360_1(State m, long l0, long l1, long l2, int l3, int l4, long l5, long l6, long l7, long l10, long l11, long l12, long l13, long l14, long l15, long l18, long l19, long l20, long l21, long l22, int l23, int l24, int l25, int l26, int l27) {
 final byte[] b = m.bytes;
 int exit = 0;
 PART: {
  L18: {
   L19: {
    L20: {
     L21: {
      L22: {
       L23: {
        L24: {
         L25: while (true) {
          l20 = l5;
          l21 = l12;
          l10 = l7;
          L26: {
           L27: {
            if ((l23 = (int) b[((int) l0) - 58912]) <= -1) { break L27; }
            l12 = 1L;
            break L26;
           }
           L28: {
            if (l23 + Integer.MIN_VALUE >= 2147483616) { break L28; }
            l12 = 2L;
            break L26;
           }
           l12 = (l23 + Integer.MIN_VALUE < 2147483632) ? 3L : 4L;
          }
          Core6.f190(m, l11 + 280L, l15, l14, l0, l10, l3, l4);
          Words.put64(b, ((int) l11) - 58864, b[((int) l11) - 58632] & 0xffL);
          Words.put64(b, ((int) l11) - 58856, ((l24 = b[((int) l11) - 58624] & 0xff) & 0xffffffffL) & 255L);
          m.copy((int) l19, (int) l18, (int) 216L);
          Core7.f227(m, l11 + 8L, l11 + 48L, l0 + l12, l10 - l12);
          l5 = l20;
          l12 = l21;
          L29: {
           if ((l7 = Words.get64(b, ((int) l11) - 58896)) + Long.MIN_VALUE >= l10 + Long.MIN_VALUE) { break L29; }
           l12 = l21;
           l5 = l20;
           L30: while (true) {
            L31: {
             L32: {
              if ((l23 = (int) b[((int) l0) - 58912]) <= -1) { break L32; }
              l2 = 1L;
              break L31;
             }
             L33: {
              if (l23 + Integer.MIN_VALUE >= 2147483616) { break L33; }
              l2 = 2L;
              break L31;
             }
             l2 = (l23 + Integer.MIN_VALUE < 2147483632) ? 3L : 4L;
            }
            L34: {
             if (!(l12 == 0L)) { break L34; }
             l12 = 0L;
             break L29;
            }
            l10 = l10 - l2;
            L35: {
             L36: {
              if ((l23 = (int) b[((int) l5) - 58912]) <= -1) { break L36; }
              l6 = 1L;
              break L35;
             }
             L37: {
              if (l23 + Integer.MIN_VALUE >= 2147483616) { break L37; }
              l6 = 2L;
              break L35;
             }
             l6 = (l23 + Integer.MIN_VALUE < 2147483632) ? 3L : 4L;
            }
            l0 = l0 + l2;
            l12 = l12 - l6;
            l5 = l5 + l6;
            if (l7 + Long.MIN_VALUE < l10 + Long.MIN_VALUE) { continue L30; }
            break L30;
           }
          }
          l0 = Words.get64(b, ((int) l11) - 58904);
          L38: {
           L39: {
            if ((b[((int) l11) - 58632] & 0xff) != 1) { break L39; }
            if ((l24 & 255) != 2) { break L39; }
            l10 = l20;
            l6 = l22 = l21 - l12;
            L40: while (true) {
             if (l6 == 0L) { break L39; }
             l23 = (l24 = (int) b[((int) l10) - 58912]) & 255;
             l2 = 1L;
             L41: {
              if (l24 > -1) { break L41; }
              l25 = (b[((int) l10) - 58911] & 0xff) & 63;
              L42: {
               if (l24 + Integer.MIN_VALUE > 2147483615) { break L42; }
               l23 = ((l23 << 6) & 1984) | l25;
               l2 = 2L;
               break L41;
              }
              l26 = (b[((int) l10) - 58910] & 0xff) & 63;
              L43: {
               if (l24 + Integer.MIN_VALUE > 2147483631) { break L43; }
               l23 = ((l25 << 6) | ((l23 << 12) & 61440)) | l26;
               l2 = 3L;
               break L41;
              }
              l23 = ((l26 << 6) | ((l25 << 12) | ((l23 << 18) & 1835008))) | ((b[((int) l10) - 58909] & 0xff) & 63);
              l2 = 4L;
             }
             L44: {
              if ((l23 + -48) + Integer.MIN_VALUE < -2147483638) { break L44; }
              l6 = l6 - l2;
              l10 = l10 + l2;
              if ((l23 + -65296) + Integer.MIN_VALUE >= -2147483638) { continue L40; }
             }
             break L40;
            }
            L45: {
             L46: {
              L47: {
               if ((l10 = l1 - l21) + Long.MIN_VALUE < -9223372036854775805L) { break L47; }
               if (((l24 = b[((int) ((l2 = l13 + l10) + -3L)) - 58912] & 0xff) & 240) != 224) { break L46; }
               l23 = (((l24 << 12) | (l25 = b[((int) (l2 + -1L)) - 58912] & 0xff)) + ((l26 = b[((int) (l2 + -2L)) - 58912] & 0xff) << 6)) + -925824;
               l2 = l10 + -3L;
               if (Words.get32(b, ((int) ((l6 = ((((l24 = ((l26 << 8) | (l25 << 16)) | l24) & 0xffffffffL) * 953497L) >>> 22L) & 1016L) + 66852L)) - 58912) == l24) { break L45; }
               break L24;
              }
              if (l1 == l21) { break L19; }
             }
             l24 = 0;
             if ((l23 = (int) b[((int) (l13 + (l2 = l10 + -1L))) - 58912]) >= 0) { break L38; }
             l2 = -2L;
             L48: {
              if ((b[((int) ((l6 = l13 + l10) + -2L)) - 58912] & 0xff) + Integer.MIN_VALUE > -2147483457) { break L48; }
              l2 = ((b[((int) (l6 + -3L)) - 58912] & 0xff) + Integer.MIN_VALUE > -2147483457) ? -3L : -4L;
             }
             l23 = (l25 = (int) b[((int) (l6 = l13 + (l2 = l2 + l10))) - 58912]) & 255;
             if (l25 > -1) { break L38; }
             l26 = (b[((int) l6) - 58911] & 0xff) & 63;
             L49: {
              if (l25 + Integer.MIN_VALUE > 2147483615) { break L49; }
              l23 = ((l23 << 6) & 1984) | l26;
              break L38;
             }
             l27 = (b[((int) l6) - 58910] & 0xff) & 63;
             L50: {
              L51: {
               if (l25 + Integer.MIN_VALUE > 2147483631) { break L51; }
               l23 = ((l26 << 6) | ((l23 << 12) & 61440)) | l27;
               break L50;
              }
              l23 = ((l27 << 6) | ((l26 << 12) | ((l23 << 18) & 1835008))) | ((b[((int) l6) - 58909] & 0xff) & 63);
             }
             if ((l23 + -2048) + Integer.MIN_VALUE > -2147420161) { break L38; }
             if (Words.get32(b, ((int) ((l6 = ((((l24 = (((l23 >>> 12) | ((l23 << 2) & 16128)) | ((l23 << 16) & 4128768)) | 8421600) & 0xffffffffL) * 953497L) >>> 22L) & 1016L) + 66852L)) - 58912) != l24) { break L23; }
            }
            if ((b[((int) (l6 + 66856L)) - 58912] & 0xff) != 0) { break L24; }
            break L21;
           }
           if (l7 != 0L) { continue L25; }
           exit = 1; break PART;
          }
          break L25;
         }
         if ((l23 + -48) + Integer.MIN_VALUE >= -2147483638) { break L24; }
         l26 = 1;
         break L18;
        }
        if (l23 + Integer.MIN_VALUE > -2147483521) { break L23; }
        l26 = 1;
        l24 = 0;
        if (l23 == 95) { break L18; }
        if ((l23 + -44) + Integer.MIN_VALUE < -2147483645) { break L22; }
        if ((l23 + -48) + Integer.MIN_VALUE < -2147483638) { break L18; }
        if (((l23 & 95) + -65) + Integer.MIN_VALUE >= -2147483622) { break L19; }
        break L18;
       }
       l26 = 0;
       l24 = 1;
       L52: {
        L53: {
         if (l23 > 24185) { break L53; }
         L54: {
          if (l23 > 21316) { break L54; }
          L55: {
           if (l23 > 20959) { break L55; }
           if (l23 == 20313) { break L19; }
           if (l23 == 20358) { break L19; }
           break L52;
          }
          if (l23 == 20960) { break L18; }
          if (l23 == 20986) { break L19; }
          break L52;
         }
         L56: {
          switch (l23 + -21317) {
          case 0: case 7: break L21;
          case 1: case 2: case 3: case 4: case 5: case 6: break L52;
          default: break L56;
          }
         }
         if (l23 == 22810) { break L19; }
         if (l23 == 22909) { break L19; }
         break L52;
        }
        L57: {
         if (l23 > 26468) { break L57; }
         L58: {
          switch (l23 + -24186) {
          case 0: break L21;
          case 1: case 2: case 3: break L52;
          case 4: break L18;
          default: break L58;
          }
         }
         L59: {
          switch (l23 + -25968) {
          case 0: case 8: break L18;
          case 1: case 2: case 3: case 4: case 5: case 6: case 7: break L52;
          default: break L59;
          }
         }
         if (l23 == 24319) { break L21; }
         break L52;
        }
        L60: {
         if (l23 > 39191) { break L60; }
         if (l23 == 26469) { break L19; }
         if (l23 != 28857) { break L52; }
         break L22;
        }
        if (l23 == 39192) { break L19; }
        if (l23 == 40670) { break L22; }
       }
       if ((l23 + -65296) + Integer.MIN_VALUE > -2147483639) { break L19; }
       break L21;
      }
      Words.put64(b, ((int) l11) - 58608, 0L);
      Words.put64(b, ((int) l11) - 58616, 0L);
      Words.put64(b, ((int) l11) - 58624, 0L);
      Words.put64(b, ((int) l11) - 58632, 0L);
      L61: {
       L62: {
        L63: {
         L64: {
          L65: {
           L66: {
            if (l2 + Long.MIN_VALUE < -9223372036854775805L) { break L66; }
            if (((l23 = b[((int) ((l6 = l13 + l2) + -3L)) - 58912] & 0xff) & 240) != 224) { break L65; }
            Words.put64(b, ((int) l11) - 58616, l13);
            Words.put64(b, ((int) l11) - 58632, 1L);
            Words.put64(b, ((int) l11) - 58608, l2 + -3L);
            Words.put32(b, ((int) l11) - 58624, (((l23 << 12) | (l24 = b[((int) (l6 + -1L)) - 58912] & 0xff)) + ((l25 = b[((int) (l6 + -2L)) - 58912] & 0xff) << 6)) + -925824);
            final int t67 = (int) l11;
            final int t68 = b[((int) ((l2 = ((((l23 = ((l25 << 8) | (l24 << 16)) | l23) & 0xffffffffL) * 953497L) >>> 22L) & 1016L) + 66857L)) - 58912] & 0xff;
            final int t69 = l23 = (Words.get32(b, State.far((int) l2, 66852)) == l23) ? 1 : 0;
            b[t67 - 58619] = (byte) (t69 != 0 ? t68 : 0);
            final int t70 = (int) l11;
            final int t71 = b[((int) (l2 + 66856L)) - 58912] & 0xff;
            final int t72 = l23;
            b[t70 - 58620] = (byte) (t72 != 0 ? t71 : 2);
            break L61;
           }
           if (l2 == 0L) { break L64; }
          }
          if ((l23 = (int) b[((int) (l13 + (l6 = l2 + -1L))) - 58912]) >= 0) { break L63; }
          l6 = -2L;
          L73: {
           if ((b[((int) ((l21 = l13 + l2) + -2L)) - 58912] & 0xff) + Integer.MIN_VALUE > -2147483457) { break L73; }
           l6 = ((b[((int) (l21 + -3L)) - 58912] & 0xff) + Integer.MIN_VALUE > -2147483457) ? -3L : -4L;
          }
          l23 = (l24 = (int) b[((int) (l2 = l13 + (l6 = l6 + l2))) - 58912]) & 255;
          if (l24 > -1) { break L63; }
          l25 = (b[((int) l2) - 58911] & 0xff) & 63;
          L74: {
           if (l24 + Integer.MIN_VALUE > 2147483615) { break L74; }
           l23 = ((l23 << 6) & 1984) | l25;
           break L63;
          }
          l26 = (b[((int) l2) - 58910] & 0xff) & 63;
          L75: {
           L76: {
            if (l24 + Integer.MIN_VALUE > 2147483631) { break L76; }
            l23 = ((l25 << 6) | ((l23 << 12) & 61440)) | l26;
            break L75;
           }
           l23 = ((l26 << 6) | ((l25 << 12) | ((l23 << 18) & 1835008))) | ((b[((int) l2) - 58909] & 0xff) & 63);
          }
          if ((l23 + -2048) + Integer.MIN_VALUE > -2147420161) { break L63; }
          final int t77 = b[((int) ((l2 = ((((l24 = (((l23 >>> 12) | ((l23 << 2) & 16128)) | ((l23 << 16) & 4128768)) | 8421600) & 0xffffffffL) * 953497L) >>> 22L) & 1016L) + 66857L)) - 58912] & 0xff;
          final int t78 = l25 = (Words.get32(b, State.far((int) l2, 66852)) == l24) ? 1 : 0;
          l24 = t78 != 0 ? t77 : 0;
          final int t79 = b[((int) (l2 + 66856L)) - 58912] & 0xff;
          final int t80 = l25;
          l25 = t80 != 0 ? t79 : 2;
          break L62;
         }
         Words.put64(b, ((int) l18) - 58912, 0L);
         Words.put64(b, ((int) l18) - 58904, 0L);
         Words.put64(b, ((int) l11) - 58626, 0L);
         Words.put64(b, ((int) l11) - 58632, 0L);
         break L61;
        }
        final int t81 = l24 = l23 + -48;
        final int t82 = l25 = (l24 + Integer.MIN_VALUE < -2147483638) ? 1 : 0;
        l24 = t82 != 0 ? t81 : 0;
        l25 = l25 != 0 ? 0 : 2;
       }
       Words.put64(b, ((int) l11) - 58608, l6);
       Words.put64(b, ((int) l11) - 58616, l13);
       b[((int) l11) - 58619] = (byte) l24;
       b[((int) l11) - 58620] = (byte) l25;
       Words.put32(b, ((int) l11) - 58624, l23);
       Words.put64(b, ((int) l11) - 58632, 1L);
      }
      l26 = Core3.f110(m, l11 + 280L);
      break L20;
     }
     l26 = 1;
    }
    l24 = 0;
    break L18;
   }
   l24 = 0;
   l26 = 0;
  }
 }
 m.kept[0] = l0;
 m.kept[1] = l2;
 m.kept[2] = l5;
 m.kept[3] = l6;
 m.kept[4] = l7;
 m.kept[5] = l10;
 m.kept[6] = l12;
 m.kept[7] = l20;
 m.kept[8] = l21;
 m.kept[9] = l22;
 m.kept[10] = l23;
 m.kept[11] = l24;
 m.kept[12] = l25;
 m.kept[13] = l26;
 m.kept[14] = l27;
 return exit;
}

static int f360(State m, long l0, long l1, long l2, int l3, int l4, long l5, long l6, long l7, long l8, long l9) {
 final byte[] b = m.bytes;
 long l10 = 0;
 long l11 = 0;
 long l12 = 0;
 long l13 = 0;
 long l14 = 0;
 long l15 = 0;
 long l16 = 0;
 long l17 = 0;
 long l18 = 0;
 long l19 = 0;
 long l20 = 0;
 long l21 = 0;
 long l22 = 0;
 int l23 = 0;
 int l24 = 0;
 int l25 = 0;
 int l26 = 0;
 int l27 = 0;
 int l28 = 0;
 m.g0 = l10 = m.g0 - 512L;
 L1: {
  L2: {
   L3: {
    L4: {
     if ((l11 = l10) < 16L) { break L4; }
     Words.put64(b, ((int) l11) - 58872, 0L);
     Words.put64(b, ((int) l11) - 58880, 0L);
     Words.put64(b, ((int) l11) - 58888, 0L);
     L5: {
      if (l3 + Integer.MIN_VALUE > -2147483647) { break L5; }
      if (l4 + Integer.MIN_VALUE > -2147483633) { break L5; }
      l12 = l1;
      l10 = l13 = l0 + ((l0 == 0L) ? 4096L : 0L);
      L6: {
       L7: {
        L8: {
         L9: {
          if (l1 + Long.MIN_VALUE < -9223372036854775804L) { break L9; }
          l10 = l13;
          l12 = l1;
          L10: while (true) {
           if (((Words.get32(b, ((int) l10) - 58912) + 16776990) & 12632312) != 8421376) { break L8; }
           l10 = l10 + 3L;
           if ((l12 = l12 + -3L) + Long.MIN_VALUE > -9223372036854775805L) { continue L10; }
           break L10;
          }
         }
         if (l12 + Long.MIN_VALUE > -9223372036854775805L) { break L8; }
         L11: {
          switch ((int) l12) {
          case 1: case 2: break L8;
          case 3: break L11;
          default: break L7;
          }
         }
         if (((((Words.get16(b, ((int) l10) - 58912) & 0xffff) | ((b[((int) (l10 + 2L)) - 58912] & 0xff) << 16)) + 16776990) & 12632312) == 8421376) { break L7; }
        }
        if (Core1.f6(m, l13, l1) == 0) { break L6; }
       }
       Core6.f185(m, l11 + 24L, l13, l1, l5 + ((l5 == 0L) ? 4096L : 0L), l6);
       if ((b[((int) l11) - 58888] & 0xff) != 1) { break L3; }
       l14 = Words.get64(b, ((int) l11) - 58872);
       l15 = Words.get64(b, ((int) l11) - 58880);
       L12: {
        L13: {
         if (l1 == l2) { break L13; }
         if (l1 + Long.MIN_VALUE < l2 + Long.MIN_VALUE) { break L12; }
         if (((int) b[((int) (l13 + l2)) - 58912]) < -64) { break L12; }
        }
        L14: {
         if (l14 == l2) { break L14; }
         if (l14 + Long.MIN_VALUE < l2 + Long.MIN_VALUE) { break L2; }
         if (((int) b[((int) (l15 + l2)) - 58912]) <= -65) { break L2; }
        }
        L15: {
         L16: {
          if (!(l8 == 0L)) { break L16; }
          l16 = 0L;
          break L15;
         }
         l17 = l7 + ((l7 == 0L) ? 4096L : 0L);
         l12 = l1 - l2;
         l5 = l13 + l2;
         l0 = l15 + l2;
         l7 = l14 - l2;
         l18 = (l11 + 280L) + 16L;
         l19 = (l11 + 48L) + 16L;
         l16 = 0L;
         L17: while (true) {
          m.fill((int) (l11 + 280L), 0, (int) 232L);
          if (l7 == 0L) { break L15; }
          final int x83 = f360_1(m, l0, l1, l2, l3, l4, l5, l6, l7, l10, l11, l12, l13, l14, l15, l18, l19, l20, l21, l22, l23, l24, l25, l26, l27);
          l0 = m.kept[0];
          l2 = m.kept[1];
          l5 = m.kept[2];
          l6 = m.kept[3];
          l7 = m.kept[4];
          l10 = m.kept[5];
          l12 = m.kept[6];
          l20 = m.kept[7];
          l21 = m.kept[8];
          l22 = m.kept[9];
          l23 = (int) m.kept[10];
          l24 = (int) m.kept[11];
          l25 = (int) m.kept[12];
          l26 = (int) m.kept[13];
          l27 = (int) m.kept[14];
          switch (x83) {
          case 1: break L15;
          }
          L84: {
           L85: {
            L86: {
             L87: {
              L88: {
               L89: {
                L90: {
                 L91: {
                  L92: {
                   L93: {
                    if (l12 + Long.MIN_VALUE < -9223372036854775805L) { break L93; }
                    if (((l23 = b[((int) l5) - 58912] & 0xff) & 240) != 224) { break L92; }
                    l25 = (((l27 = b[((int) l5) - 58911] & 0xff) << 8) | ((l28 = b[((int) l5) - 58910] & 0xff) << 16)) | l23;
                    l23 = (((l23 << 12) | l28) + (l27 << 6)) + -925824;
                    l6 = l12 + -3L;
                    l2 = l5 + 3L;
                    if (l25 != Words.get32(b, ((int) ((l21 = (((l25 & 0xffffffffL) * 953497L) >>> 22L) & 1016L) + 66852L)) - 58912)) { break L90; }
                    break L91;
                   }
                   if (l12 == 0L) { break L85; }
                   l23 = b[((int) l5) - 58912] & 0xff;
                  }
                  l2 = 1L;
                  L94: {
                   if (((int) (byte) l23) > -1) { break L94; }
                   l25 = (b[((int) l5) - 58911] & 0xff) & 63;
                   L95: {
                    if (l23 + Integer.MIN_VALUE > -2147483425) { break L95; }
                    l23 = ((l23 << 6) & 1984) | l25;
                    l2 = 2L;
                    break L94;
                   }
                   l27 = (b[((int) l5) - 58910] & 0xff) & 63;
                   L96: {
                    if (l23 + Integer.MIN_VALUE > -2147483409) { break L96; }
                    l23 = ((l25 << 6) | ((l23 << 12) & 61440)) | l27;
                    l2 = 3L;
                    break L94;
                   }
                   l23 = ((l27 << 6) | ((l25 << 12) | ((l23 << 18) & 1835008))) | ((b[((int) l5) - 58909] & 0xff) & 63);
                   l2 = 4L;
                  }
                  l6 = l12 - l2;
                  l2 = l5 + l2;
                  L97: {
                   if ((l23 + -2048) + Integer.MIN_VALUE > -2147420161) { break L97; }
                   if (Words.get32(b, ((int) ((l21 = ((((l25 = (((l23 >>> 12) | ((l23 << 2) & 16128)) | ((l23 << 16) & 4128768)) | 8421600) & 0xffffffffL) * 953497L) >>> 22L) & 1016L) + 66852L)) - 58912) == l25) { break L91; }
                   break L89;
                  }
                  if ((l23 + -48) + Integer.MIN_VALUE >= -2147483638) { break L90; }
                  break L87;
                 }
                 if ((b[((int) (l21 + 66856L)) - 58912] & 0xff) == 0) { break L87; }
                }
                if (l23 + Integer.MIN_VALUE > -2147483521) { break L89; }
                l27 = 1;
                l25 = 0;
                if (l23 == 95) { break L84; }
                if ((l23 + -44) + Integer.MIN_VALUE < -2147483645) { break L88; }
                if ((l23 + -48) + Integer.MIN_VALUE < -2147483638) { break L84; }
                if (((l23 & 95) + -65) + Integer.MIN_VALUE >= -2147483622) { break L85; }
                break L84;
               }
               l27 = 0;
               l25 = 1;
               L98: {
                L99: {
                 if (l23 > 24185) { break L99; }
                 L100: {
                  L101: {
                   if (l23 > 21316) { break L101; }
                   L102: {
                    if (l23 > 20959) { break L102; }
                    if (l23 == 20313) { break L84; }
                    if (l23 != 20358) { break L98; }
                    break L84;
                   }
                   if (l23 == 20960) { break L84; }
                   if (l23 == 20986) { break L100; }
                   break L98;
                  }
                  L103: {
                   switch (l23 + -21317) {
                   case 0: case 7: break L87;
                   case 1: case 2: case 3: case 4: case 5: case 6: break L98;
                   default: break L103;
                   }
                  }
                  if (l23 == 22810) { break L84; }
                  if (l23 != 22909) { break L98; }
                 }
                 l25 = Core3.f111(m, l23, l2, l6);
                 break L84;
                }
                L104: {
                 if (l23 > 26468) { break L104; }
                 L105: {
                  switch (l23 + -24186) {
                  case 0: break L87;
                  case 1: case 2: case 3: break L98;
                  case 4: break L84;
                  default: break L105;
                  }
                 }
                 L106: {
                  switch (l23 + -25968) {
                  case 0: case 8: break L85;
                  case 1: case 2: case 3: case 4: case 5: case 6: case 7: break L98;
                  default: break L106;
                  }
                 }
                 if (l23 == 24319) { break L87; }
                 break L98;
                }
                L107: {
                 if (l23 > 39191) { break L107; }
                 if (l23 == 26469) { break L84; }
                 if (l23 != 28857) { break L98; }
                 break L88;
                }
                if (l23 == 39192) { break L84; }
                if (l23 == 40670) { break L88; }
               }
               if ((l23 + -65296) + Integer.MIN_VALUE > -2147483639) { break L85; }
               break L87;
              }
              Words.put64(b, ((int) l11) - 58608, 0L);
              Words.put64(b, ((int) l11) - 58616, 0L);
              Words.put64(b, ((int) l11) - 58624, 0L);
              Words.put64(b, ((int) l11) - 58632, 0L);
              L108: {
               L109: {
                L110: {
                 L111: {
                  if (l6 + Long.MIN_VALUE < -9223372036854775805L) { break L111; }
                  if (((l23 = b[((int) l2) - 58912] & 0xff) & 240) != 224) { break L110; }
                  l25 = b[((int) l2) - 58910] & 0xff;
                  l27 = b[((int) l2) - 58911] & 0xff;
                  Words.put64(b, ((int) l11) - 58608, l6 + -3L);
                  Words.put64(b, ((int) l11) - 58616, l2 + 3L);
                  Words.put64(b, ((int) l11) - 58632, 1L);
                  Words.put32(b, ((int) l11) - 58624, ((l25 | (l23 << 12)) + (l27 << 6)) + -925824);
                  final int t112 = (int) l11;
                  final int t113 = b[((int) ((l2 = ((((l23 = ((l27 << 8) | (l25 << 16)) | l23) & 0xffffffffL) * 953497L) >>> 22L) & 1016L) + 66857L)) - 58912] & 0xff;
                  final int t114 = l23 = (Words.get32(b, State.far((int) l2, 66852)) == l23) ? 1 : 0;
                  b[t112 - 58619] = (byte) (t114 != 0 ? t113 : 0);
                  final int t115 = (int) l11;
                  final int t116 = b[((int) (l2 + 66856L)) - 58912] & 0xff;
                  final int t117 = l23;
                  b[t115 - 58620] = (byte) (t117 != 0 ? t116 : 2);
                  break L108;
                 }
                 if (l6 == 0L) { break L109; }
                 l23 = b[((int) l2) - 58912] & 0xff;
                }
                l21 = 1L;
                L118: {
                 if (((int) (byte) l23) > -1) { break L118; }
                 l25 = (b[((int) l2) - 58911] & 0xff) & 63;
                 L119: {
                  if (l23 + Integer.MIN_VALUE > -2147483425) { break L119; }
                  l23 = ((l23 << 6) & 1984) | l25;
                  l21 = 2L;
                  break L118;
                 }
                 l27 = (b[((int) l2) - 58910] & 0xff) & 63;
                 L120: {
                  if (l23 + Integer.MIN_VALUE > -2147483409) { break L120; }
                  l23 = ((l25 << 6) | ((l23 << 12) & 61440)) | l27;
                  l21 = 3L;
                  break L118;
                 }
                 l23 = ((l27 << 6) | ((l25 << 12) | ((l23 << 18) & 1835008))) | ((b[((int) l2) - 58909] & 0xff) & 63);
                 l21 = 4L;
                }
                l6 = l6 - l21;
                l2 = l2 + l21;
                L121: {
                 L122: {
                  if ((l23 + -2048) + Integer.MIN_VALUE > -2147420161) { break L122; }
                  final int t123 = b[((int) ((l21 = ((((l25 = (((l23 >>> 12) | ((l23 << 2) & 16128)) | ((l23 << 16) & 4128768)) | 8421600) & 0xffffffffL) * 953497L) >>> 22L) & 1016L) + 66857L)) - 58912] & 0xff;
                  final int t124 = l27 = (Words.get32(b, State.far((int) l21, 66852)) == l25) ? 1 : 0;
                  l25 = t124 != 0 ? t123 : 0;
                  final int t125 = b[((int) (l21 + 66856L)) - 58912] & 0xff;
                  final int t126 = l27;
                  l27 = t126 != 0 ? t125 : 2;
                  break L121;
                 }
                 final int t127 = l25 = l23 + -48;
                 final int t128 = l27 = (l25 + Integer.MIN_VALUE < -2147483638) ? 1 : 0;
                 l25 = t128 != 0 ? t127 : 0;
                 l27 = l27 != 0 ? 0 : 2;
                }
                Words.put64(b, ((int) l11) - 58608, l6);
                Words.put64(b, ((int) l11) - 58616, l2);
                b[((int) l11) - 58619] = (byte) l25;
                b[((int) l11) - 58620] = (byte) l27;
                Words.put32(b, ((int) l11) - 58624, l23);
                Words.put64(b, ((int) l11) - 58632, 1L);
                break L108;
               }
               Words.put64(b, ((int) l18) - 58912, 0L);
               Words.put64(b, ((int) l18) - 58904, 0L);
               Words.put64(b, ((int) l11) - 58626, 0L);
               Words.put64(b, ((int) l11) - 58632, 0L);
              }
              l27 = Core3.f112(m, l11 + 280L);
              break L86;
             }
             l27 = 1;
            }
            l25 = 0;
            break L84;
           }
           l25 = 0;
           l27 = 0;
          }
          Words.put32(b, ((int) l11) - 58632, 0);
          l23 = l26 | l27;
          L129: {
           L130: {
            L131: {
             L132: {
              L133: {
               L134: {
                L135: {
                 L136: {
                  if ((l2 = l22 + -1L) + Long.MIN_VALUE > -9223372036854775806L) { break L136; }
                  L137: {
                   switch ((int) l2) {
                   case 1: break L136;
                   case 2: break L137;
                   default: break L133;
                   }
                  }
                  if ((l27 = (Words.get32(b, State.far((int) (l2 = ((((l26 = (((b[((int) l20) - 58911] & 0xff) << 8) | (l28 = b[((int) l20) - 58912] & 0xff)) | ((b[((int) l20) - 58910] & 0xff) << 16)) & 0xffffffffL) * 953497L) >>> 22L) & 1016L), 66852)) != l26) ? 1 : 0) != 0) { break L135; }
                  l26 = 1;
                  final int t138 = b[((int) (l2 + 66856L)) - 58912] & 0xff;
                  final int t139 = l27;
                  if (((l27 = t139 != 0 ? 0 : t138) & 255) == 2) { break L135; }
                  break L132;
                 }
                 if (l22 + Long.MIN_VALUE > -9223372036854775804L) { break L131; }
                 if (l22 == 0L) { break L134; }
                 l28 = b[((int) l20) - 58912] & 0xff;
                }
                if (((int) (byte) l28) > -1) { break L131; }
               }
               Core3.f113(m, l11 + 280L, l20, l22);
               if ((b[((int) l11) - 58632] & 0xff) != 1) { break L131; }
               l26 = b[((int) l11) - 58629] & 0xff;
               l27 = b[((int) l11) - 58631] & 0xff;
               break L132;
              }
              l27 = ((l26 = ((((b[((int) l20) - 58912] & 0xff) + -58) & 255) + Integer.MIN_VALUE < -2147483402) ? 1 : 0) != 0) ? 2 : 0;
             }
             l23 = (l23 != 0 ? 0 : 2) | (((l27 = l27 & 255) == 0) ? 1 : 0);
             l26 = ((l26 & 1) != 0) ? 8 : 0;
             if ((l25 | (l24 & ((l27 == 1) ? 1 : 0))) != 0) { break L130; }
             break L129;
            }
            l27 = Core3.f114(m, l20, l22);
            L140: {
             L141: {
              L142: {
               if (l24 == 0) { break L142; }
               if ((l25 | Core3.f115(m, l20, l22)) != 0) { break L141; }
               break L140;
              }
              if (l25 == 0) { break L140; }
             }
             l26 = 0;
             l23 = (l23 != 0 ? 0 : 2) | l27;
             break L130;
            }
            l26 = 0;
            l23 = (l23 != 0 ? 0 : 2) | l27;
            if (Core3.f116(m, l20, l22) == 0) { break L129; }
           }
           l23 = l23 | 4;
          }
          Words.put64(b, ((int) l11) - 58592, l12);
          Words.put64(b, ((int) l11) - 58600, l5);
          Words.put64(b, ((int) l11) - 58608, l22);
          Words.put64(b, ((int) l11) - 58616, l20);
          Words.put64(b, ((int) l11) - 58624, l10);
          Words.put64(b, ((int) l11) - 58632, l13);
          Core4.f126(m, l11, l11 + 280L);
          l24 = b[((int) l11) - 58911] & 0xff;
          l25 = b[((int) l11) - 58912] & 0xff;
          Words.put32(b, ((int) (l2 = l17 + (l16 * 24L))) - 58892, 0);
          Words.put64(b, ((int) l2) - 58904, l1 - l12);
          Words.put64(b, ((int) l2) - 58912, l10);
          final int t143 = (int) l2;
          final int t144 = l26 | l23;
          final int t145 = ((l24 + 1) & 255) << 4;
          final int t146 = l25 & 1;
          Words.put32(b, t143 - 58896, t144 | (t146 != 0 ? t145 : 0));
          if ((l16 = l16 + 1L) != l8) { continue L17; }
          break L17;
         }
         l16 = l8;
        }
        Words.put64(b, ((int) l9) - 58912, l16);
        l23 = 0;
        break L1;
       }
       Words.put64(b, ((int) l9) - 58912, 0L);
       l23 = 5;
       break L1;
      }
      Words.put64(b, ((int) l9) - 58912, 0L);
      l23 = 5;
      break L1;
     }
     Words.put64(b, ((int) l9) - 58912, 0L);
     l23 = 8;
     break L1;
    }
    throw State.trap();
   }
   Words.put64(b, ((int) l9) - 58912, 0L);
   l23 = 6;
   break L1;
  }
  Words.put64(b, ((int) l9) - 58912, 0L);
  l23 = 5;
 }
 m.g0 = l11 + 512L;
 return l23;
}

static int f362(State m, long l0, long l1, int l2, int l3, long l4) {
 final byte[] b = m.bytes;
 long l5 = 0;
 long l6 = 0;
 long l7 = 0;
 int l8 = 0;
 int l9 = 0;
 int l10 = 0;
 int l11 = 0;
 m.g0 = l5 = m.g0 - 16L;
 L1: {
  if ((l6 = l5) < 16L) { break L1; }
  Words.put32(b, ((int) l4) - 58912, 0);
  L2: {
   L3: {
    if (l3 + Integer.MIN_VALUE > -2147483644) { break L3; }
    l8 = b[((int) ((l5 = (l3 & 0xffffffffL) << 1L) + 98010L)) - 58912] & 0xff;
    l9 = b[((int) (l5 + 98009L)) - 58912] & 0xff;
    l10 = 1;
    l11 = 1;
    break L2;
   }
   l11 = (l3 != 5) ? 1 : 0;
   l10 = (l3 == 5) ? 1 : 0;
   l9 = 0;
   l8 = 0;
  }
  l3 = 8;
  L4: {
   if (l2 + Integer.MIN_VALUE > -2147483639) { break L4; }
   if (l10 == 0) { break L4; }
   l7 = l1;
   l5 = l0 = l0 + ((l0 == 0L) ? 4096L : 0L);
   L5: {
    L6: {
     L7: {
      if (l1 + Long.MIN_VALUE < -9223372036854775804L) { break L7; }
      l5 = l0;
      l7 = l1;
      L8: while (true) {
       if (((Words.get32(b, ((int) l5) - 58912) + 16776990) & 12632312) != 8421376) { break L6; }
       l5 = l5 + 3L;
       if ((l7 = l7 + -3L) + Long.MIN_VALUE > -9223372036854775805L) { continue L8; }
       break L8;
      }
     }
     if (l7 + Long.MIN_VALUE > -9223372036854775805L) { break L6; }
     L9: {
      switch ((int) l7) {
      case 1: case 2: break L6;
      case 3: break L9;
      default: break L5;
      }
     }
     if (((((Words.get16(b, ((int) l5) - 58912) & 0xffff) | ((b[((int) (l5 + 2L)) - 58912] & 0xff) << 16)) + 16776990) & 12632312) == 8421376) { break L5; }
    }
    l3 = 5;
    if (Core1.f6(m, l0, l1) == 0) { break L4; }
   }
   l3 = (l2 + Integer.MIN_VALUE < -2147483638) ? l2 : 0;
   L10: {
    if (l11 != 0) { break L10; }
    Core7.f228(m, l6 + 8L, l3, l0, l1);
    l8 = b[((int) l6) - 58903] & 0xff;
    l9 = b[((int) l6) - 58904] & 0xff;
   }
   Core7.f229(m, l6, l3, l9, l8, l0, l1);
   l3 = 0;
   if ((b[((int) l6) - 58912] & 0xff) != 1) { break L4; }
   Words.put32(b, ((int) l4) - 58912, ((b[((int) l6) - 58911] & 0xff) & 255) + 1);
  }
  m.g0 = l6 + 16L;
  final int t11 = l3;
  return t11;
 }
 throw State.trap();
}

static int f364(State m, long l0, long l1, int l2, int l3, int l4, long l5, long l6, long l7) {
 final byte[] b = m.bytes;
 long l8 = 0;
 long l9 = 0;
 long l10 = 0;
 long l11 = 0;
 long l12 = 0;
 long l13 = 0;
 int l14 = 0;
 int l15 = 0;
 int l16 = 0;
 int l17 = 0;
 int l18 = 0;
 m.g0 = l8 = m.g0 - 688L;
 L1: {
  L2: {
   L3: {
    L4: {
     L5: {
      L6: {
       L7: {
        L8: {
         L9: {
          L10: {
           L11: {
            if ((l8 = l8) < 16L) { break L11; }
            m.fill((int) (l8 + 72L), 0, (int) 512L);
            Words.put64(b, ((int) l7) - 58912, 0L);
            Words.put64(b, ((int) l8) - 58848, 0L);
            Words.put64(b, ((int) l8) - 58856, 0L);
            Words.put64(b, ((int) l8) - 58864, 0L);
            L12: {
             L13: {
              if (l3 + Integer.MIN_VALUE > -2147483644) { break L13; }
              l14 = b[((int) ((l9 = (l3 & 0xffffffffL) << 1L) + 98010L)) - 58912] & 0xff;
              l15 = b[((int) (l9 + 98009L)) - 58912] & 0xff;
              l16 = 1;
              l17 = 1;
              break L12;
             }
             l17 = (l3 != 5) ? 1 : 0;
             l16 = (l3 == 5) ? 1 : 0;
             l15 = 0;
             l14 = 0;
            }
            l3 = 8;
            if (l2 + Integer.MIN_VALUE > -2147483639) { break L1; }
            if (l16 == 0) { break L1; }
            if (l4 + Integer.MIN_VALUE > -2147483646) { break L1; }
            l9 = l1;
            l0 = l10 = l0 + ((l0 == 0L) ? 4096L : 0L);
            L14: {
             L15: {
              L16: {
               if (l1 + Long.MIN_VALUE < -9223372036854775804L) { break L16; }
               l0 = l10;
               l9 = l1;
               L17: while (true) {
                if (((Words.get32(b, ((int) l0) - 58912) + 16776990) & 12632312) != 8421376) { break L15; }
                l0 = l0 + 3L;
                if ((l9 = l9 + -3L) + Long.MIN_VALUE > -9223372036854775805L) { continue L17; }
                break L17;
               }
              }
              if (l9 + Long.MIN_VALUE > -9223372036854775805L) { break L15; }
              L18: {
               switch ((int) l9) {
               case 1: case 2: break L15;
               case 3: break L18;
               default: break L14;
               }
              }
              if (((((Words.get16(b, ((int) l0) - 58912) & 0xffff) | ((b[((int) (l0 + 2L)) - 58912] & 0xff) << 16)) + 16776990) & 12632312) == 8421376) { break L14; }
             }
             if (Core1.f6(m, l10, l1) != 0) { break L14; }
             l3 = 5;
             break L1;
            }
            l2 = (l2 + Integer.MIN_VALUE < -2147483638) ? l2 : 0;
            m.fill((int) (l8 + 72L), 0, (int) 512L);
            Words.put64(b, ((int) l8) - 58848, 0L);
            Words.put64(b, ((int) l8) - 58856, 512L);
            Words.put64(b, ((int) l8) - 58864, l8 + 72L);
            L19: {
             if (l17 != 0) { break L19; }
             Core7.f228(m, l8 + 40L, l2, l10, l1);
             l14 = b[((int) l8) - 58871] & 0xff;
             l15 = b[((int) l8) - 58872] & 0xff;
            }
            m.fill((int) (l8 + 584L), 0, (int) 72L);
            if ((l15 & 255) != 0) { break L10; }
            l11 = 0L;
            Words.put64(b, ((int) l8) - 58232, 0L);
            Words.put64(b, ((int) l8) - 58240, 0L);
            Words.put64(b, ((int) l8) - 58248, 0L);
            Words.put64(b, ((int) l8) - 58256, 0L);
            l0 = l10;
            l12 = l1;
            L20: {
             L21: {
              L22: {
               if ((l2 & 255) + Integer.MIN_VALUE < -2147483643) { break L22; }
               l11 = 0L;
               L23: {
                if (!(l1 == 0L)) { break L23; }
                l0 = l10;
                l12 = 0L;
                break L22;
               }
               l12 = l1;
               l0 = l10;
               L24: {
                L25: {
                 L26: {
                  L27: {
                   L28: {
                    L29: {
                     L30: {
                      L31: while (true) {
                       L32: {
                        L33: {
                         if ((l3 = b[((int) l0) - 58912] & 0xff) + Integer.MIN_VALUE > -2147483616) { break L33; }
                         if (((1L << (l3 & 0xffffffffL)) & 4294983168L) == 0L) { break L33; }
                         l9 = 1L;
                         break L32;
                        }
                        L34: {
                         L35: {
                          if (l3 == 194) { break L35; }
                          if ((l16 = (l12 + Long.MIN_VALUE < -9223372036854775805L) ? 1 : 0) != 0) { break L30; }
                          if (((l3 + 28) & 255) + Integer.MIN_VALUE < -2147483395) { break L30; }
                          l16 = b[((int) (l0 + 1L)) - 58912] & 0xff;
                          l17 = (int) (byte) (l18 = b[((int) (l0 + 2L)) - 58912] & 0xff);
                          if (l3 != 226) { break L34; }
                          if ((l16 & 255) != 128) { break L34; }
                          l9 = 3L;
                          if (l17 < -117) { break L32; }
                          l3 = -128;
                          l16 = 128;
                          if ((l18 = l18 + -168) + Integer.MIN_VALUE > -2147483641) { break L29; }
                          if (((1 << l18) & 131) != 0) { break L32; }
                          break L29;
                         }
                         l3 = b[((int) l0) - 58911] & 0xff;
                         L36: {
                          if (l12 != 1L) { break L36; }
                          l16 = l3 & 63;
                          l3 = 194;
                          break L27;
                         }
                         l9 = 2L;
                         if (l3 == 133) { break L32; }
                         if (l3 == 160) { break L32; }
                         l16 = l3 & 63;
                         l3 = 194;
                         break L27;
                        }
                        L37: {
                         L38: {
                          L39: {
                           L40: {
                            switch (l3 + -225) {
                            case 1: break L39;
                            case 2: break L38;
                            default: break L40;
                            }
                           }
                           l3 = -4224;
                           if ((l16 & 255) != 154) { break L29; }
                           if (l17 == -128) { break L37; }
                           break L29;
                          }
                          l3 = -128;
                          if ((l16 & 255) != 129) { break L29; }
                          if (l17 == -97) { break L37; }
                          break L29;
                         }
                         l3 = 3968;
                         if ((l16 & 255) != 128) { break L29; }
                         if (l17 != -128) { break L29; }
                        }
                        l9 = 3L;
                       }
                       l11 = l11 + 1L;
                       l0 = l0 + l9;
                       if (!((l12 = l12 - l9) == 0L)) { continue L31; }
                       break L31;
                      }
                      l12 = 0L;
                      break L22;
                     }
                     if (l16 != 0) { break L28; }
                     if ((l3 & 240) != 224) { break L28; }
                     l3 = (l3 << 12) + -925824;
                     l17 = b[((int) l0) - 58910] & 0xff;
                     l16 = b[((int) l0) - 58911] & 0xff;
                    }
                    l3 = (l3 + (l17 & 255)) + ((l16 & 255) << 6);
                    l13 = l12 + -3L;
                    l9 = l0 + 3L;
                    break L24;
                   }
                   l9 = 1L;
                   if (((int) (byte) l3) > -1) { break L25; }
                   l16 = (b[((int) l0) - 58911] & 0xff) & 63;
                   if (l3 + Integer.MIN_VALUE > -2147483425) { break L26; }
                  }
                  l3 = ((l3 << 6) & 1984) | l16;
                  l9 = 2L;
                  break L25;
                 }
                 l17 = (b[((int) l0) - 58910] & 0xff) & 63;
                 L41: {
                  if (l3 + Integer.MIN_VALUE > -2147483409) { break L41; }
                  l3 = ((l16 << 6) | ((l3 << 12) & 61440)) | l17;
                  l9 = 3L;
                  break L25;
                 }
                 l3 = ((l17 << 6) | ((l16 << 12) | ((l3 << 18) & 1835008))) | ((b[((int) l0) - 58909] & 0xff) & 63);
                 l9 = 4L;
                }
                l13 = l12 - l9;
                l9 = l0 + l9;
               }
               if (l3 == 27491) { break L21; }
               if (l3 == 36000) { break L20; }
               if (l3 == 36127) { break L20; }
              }
              Core2.f39(m, l8 + 656L, l11, l0, l12);
              break L9;
             }
             Core2.f39(m, l8 + 656L, l11 + 1L, l9, l13);
             break L9;
            }
            Core2.f39(m, l8 + 656L, l11 + 1L, l9, l13);
            l3 = 3;
            l16 = 1;
            break L8;
           }
           throw State.trap();
          }
          l11 = 0L;
          Words.put64(b, ((int) l8) - 58232, 0L);
          Words.put64(b, ((int) l8) - 58240, 0L);
          Words.put64(b, ((int) l8) - 58248, 0L);
          Words.put64(b, ((int) l8) - 58256, 0L);
          l0 = l10;
          l12 = l1;
          L42: {
           L43: {
            L44: {
             L45: {
              L46: {
               if ((l2 & 255) + Integer.MIN_VALUE < -2147483643) { break L46; }
               l11 = 0L;
               L47: {
                if (!(l1 == 0L)) { break L47; }
                l0 = l10;
                l12 = 0L;
                break L46;
               }
               l12 = l1;
               l0 = l10;
               L48: {
                L49: {
                 L50: {
                  L51: {
                   L52: {
                    L53: {
                     L54: {
                      L55: while (true) {
                       L56: {
                        L57: {
                         if ((l3 = b[((int) l0) - 58912] & 0xff) + Integer.MIN_VALUE > -2147483616) { break L57; }
                         if (((1L << (l3 & 0xffffffffL)) & 4294983168L) == 0L) { break L57; }
                         l9 = 1L;
                         break L56;
                        }
                        L58: {
                         L59: {
                          if (l3 == 194) { break L59; }
                          if ((l16 = (l12 + Long.MIN_VALUE < -9223372036854775805L) ? 1 : 0) != 0) { break L54; }
                          if (((l3 + 28) & 255) + Integer.MIN_VALUE < -2147483395) { break L54; }
                          l16 = b[((int) (l0 + 1L)) - 58912] & 0xff;
                          l17 = (int) (byte) (l18 = b[((int) (l0 + 2L)) - 58912] & 0xff);
                          if (l3 != 226) { break L58; }
                          if ((l16 & 255) != 128) { break L58; }
                          l9 = 3L;
                          if (l17 < -117) { break L56; }
                          l3 = -128;
                          l16 = 128;
                          if ((l18 = l18 + -168) + Integer.MIN_VALUE > -2147483641) { break L53; }
                          if (((1 << l18) & 131) != 0) { break L56; }
                          break L53;
                         }
                         l3 = b[((int) l0) - 58911] & 0xff;
                         L60: {
                          if (l12 != 1L) { break L60; }
                          l16 = l3 & 63;
                          l3 = 194;
                          break L51;
                         }
                         l9 = 2L;
                         if (l3 == 133) { break L56; }
                         if (l3 == 160) { break L56; }
                         l16 = l3 & 63;
                         l3 = 194;
                         break L51;
                        }
                        L61: {
                         L62: {
                          L63: {
                           L64: {
                            switch (l3 + -225) {
                            case 1: break L63;
                            case 2: break L62;
                            default: break L64;
                            }
                           }
                           l3 = -4224;
                           if ((l16 & 255) != 154) { break L53; }
                           if (l17 == -128) { break L61; }
                           break L53;
                          }
                          l3 = -128;
                          if ((l16 & 255) != 129) { break L53; }
                          if (l17 == -97) { break L61; }
                          break L53;
                         }
                         l3 = 3968;
                         if ((l16 & 255) != 128) { break L53; }
                         if (l17 != -128) { break L53; }
                        }
                        l9 = 3L;
                       }
                       l11 = l11 + 1L;
                       l0 = l0 + l9;
                       if (!((l12 = l12 - l9) == 0L)) { continue L55; }
                       break L55;
                      }
                      l12 = 0L;
                      break L46;
                     }
                     if (l16 != 0) { break L52; }
                     if ((l3 & 240) != 224) { break L52; }
                     l3 = (l3 << 12) + -925824;
                     l17 = b[((int) l0) - 58910] & 0xff;
                     l16 = b[((int) l0) - 58911] & 0xff;
                    }
                    l3 = (l3 + (l17 & 255)) + ((l16 & 255) << 6);
                    l13 = l12 + -3L;
                    l9 = l0 + 3L;
                    break L48;
                   }
                   l9 = 1L;
                   if (((int) (byte) l3) > -1) { break L49; }
                   l16 = (b[((int) l0) - 58911] & 0xff) & 63;
                   if (l3 + Integer.MIN_VALUE > -2147483425) { break L50; }
                  }
                  l3 = ((l3 << 6) & 1984) | l16;
                  l9 = 2L;
                  break L49;
                 }
                 l17 = (b[((int) l0) - 58910] & 0xff) & 63;
                 L65: {
                  if (l3 + Integer.MIN_VALUE > -2147483409) { break L65; }
                  l3 = ((l16 << 6) | ((l3 << 12) & 61440)) | l17;
                  l9 = 3L;
                  break L49;
                 }
                 l3 = ((l17 << 6) | ((l16 << 12) | ((l3 << 18) & 1835008))) | ((b[((int) l0) - 58909] & 0xff) & 63);
                 l9 = 4L;
                }
                l13 = l12 - l9;
                l9 = l0 + l9;
               }
               if (l3 == 27491) { break L45; }
               if (l3 == 36000) { break L44; }
               if (l3 == 36127) { break L44; }
              }
              Core2.f38(m, l8 + 656L, l14, l11, l0, l12);
              break L43;
             }
             Core2.f38(m, l8 + 656L, l14, l11 + 1L, l9, l13);
             break L43;
            }
            Core2.f38(m, l8 + 656L, l14, l11 + 1L, l9, l13);
            l3 = 3;
            l16 = 1;
            break L42;
           }
           l3 = 2;
           l16 = 0;
          }
          l9 = Words.get64(b, ((int) l8) - 58232);
          l0 = Words.get64(b, ((int) l8) - 58240);
          L66: {
           if ((b[((int) l8) - 58256] & 0xff) != 0) { break L66; }
           final int t67 = (l0 + Long.MIN_VALUE > Words.get64(b, ((int) (l12 = (((l2 & 0xffffffffL) & 255L) << 5L) + (l16 != 0 ? 67904L : 67888L))) - 58912) + Long.MIN_VALUE) ? 1 : 0;
           final int t68 = (l9 + Long.MIN_VALUE > (l0 = Words.get64(b, ((int) l12) - 58904)) + Long.MIN_VALUE) ? 1 : 0;
           final int t69 = (l9 == l0) ? 1 : 0;
           if ((t69 != 0 ? t67 : t68) != 0) { break L7; }
           l0 = l16 & 0xffffffffL;
           break L5;
          }
          final int t70 = l3;
          final int t71 = l16 = b[((int) l8) - 58248] & 0xff;
          final int t72 = l16 = (l16 == 2) ? 1 : 0;
          l3 = t72 != 0 ? t70 : t71;
          l0 = l16 != 0 ? 0L : l0;
          break L3;
         }
         l3 = 2;
         l16 = 0;
        }
        l9 = Words.get64(b, ((int) l8) - 58232);
        l0 = Words.get64(b, ((int) l8) - 58240);
        if ((b[((int) l8) - 58256] & 0xff) != 0) { break L4; }
        final int t73 = (l0 + Long.MIN_VALUE > Words.get64(b, ((int) (l12 = (((l2 & 0xffffffffL) & 255L) << 5L) + (l16 != 0 ? 67904L : 67888L))) - 58912) + Long.MIN_VALUE) ? 1 : 0;
        final int t74 = (l9 + Long.MIN_VALUE > (l0 = Words.get64(b, ((int) l12) - 58904)) + Long.MIN_VALUE) ? 1 : 0;
        final int t75 = (l9 == l0) ? 1 : 0;
        if ((t75 != 0 ? t73 : t74) == 0) { break L6; }
       }
       l16 = 1;
       l0 = 0L;
       break L2;
      }
      l0 = l16 & 0xffffffffL;
     }
     l16 = 0;
     l3 = 0;
     break L2;
    }
    final int t76 = l3;
    final int t77 = l16 = b[((int) l8) - 58248] & 0xff;
    final int t78 = l16 = (l16 == 2) ? 1 : 0;
    l3 = t78 != 0 ? t76 : t77;
    l0 = l16 != 0 ? 0L : l0;
   }
   l16 = 1;
  }
  Core7.f229(m, l8 + 32L, l2, l15, l14, l10, l1);
  L79: {
   if (l16 == 0) { break L79; }
   if (((b[((int) l8) - 58880] & 0xff) & 255) != 1) { break L79; }
   l2 = (l4 + Integer.MIN_VALUE < -2147483645) ? l4 : 0;
   l16 = b[((int) l8) - 58879] & 0xff;
   l0 = (l3 == 1) ? l0 : 0L;
   L80: {
    L81: {
     L82: {
      L83: {
       L84: {
        L85: {
         L86: {
          L87: {
           L88: {
            L89: {
             L90: {
              if ((l15 & 255) != 0) { break L90; }
              l3 = 28;
              switch ((int) ((l16 & 0xffffffffL) & 255L)) {
              case 1: break L88;
              case 2: break L87;
              case 3: break L86;
              case 4: break L80;
              case 5: break L84;
              case 6: break L89;
              case 7: break L83;
              case 8: break L82;
              default: break L81;
              }
             }
             l3 = 23;
             switch ((int) ((l16 & 0xffffffffL) & 255L)) {
             case 1: break L88;
             case 2: break L87;
             case 3: break L86;
             case 4: break L85;
             case 5: break L84;
             case 6: break L89;
             case 7: break L83;
             case 8: break L82;
             default: break L80;
             }
            }
            Core1.f30(m, l8 + 16L, l10, l1, l0);
            l9 = Words.get64(b, ((int) l8) - 58888);
            l12 = Words.get64(b, ((int) l8) - 58896);
            Core2.f55(m, l8, l10, l1, l0);
            l3 = Core1.f31(m, l12, l9, Words.get64(b, ((int) l8) - 58912), Words.get64(b, ((int) l8) - 58904)) != 0 ? 31 : 30;
            break L80;
           }
           l3 = 24;
           break L80;
          }
          l3 = 25;
          break L80;
         }
         l3 = 26;
         break L80;
        }
        l3 = 27;
        break L80;
       }
       l3 = 29;
       break L80;
      }
      l3 = 32;
      break L80;
     }
     l3 = 33;
     break L80;
    }
    l3 = 23;
   }
   Words.put32(b, ((int) l8) - 58327, 0);
   b[((int) l8) - 58328] = (byte) l2;
   Words.put32(b, ((int) l8) - 58324, 0);
   Words.put64(b, ((int) l8) - 58264, 0L);
   Words.put64(b, ((int) l8) - 58272, 83372L);
   Words.put64(b, ((int) l8) - 58280, 0L);
   Words.put64(b, ((int) l8) - 58288, 83372L);
   Words.put64(b, ((int) l8) - 58296, 0L);
   Words.put64(b, ((int) l8) - 58304, l0);
   Words.put64(b, ((int) l8) - 58312, l1);
   Words.put64(b, ((int) l8) - 58320, l10);
   Core2.f50(m, l8 + 584L, l8 + 48L, l3);
  }
  final int t91 = (int) l7;
  final long t92 = l0 = Words.get64(b, ((int) l8) - 58848);
  final int t93 = l3 = (l0 + Long.MIN_VALUE < -9223372036854775295L) ? 1 : 0;
  Words.put64(b, t91 - 58912, l0 = t93 != 0 ? t92 : 0L);
  L94: {
   if (l6 + Long.MIN_VALUE >= l0 + Long.MIN_VALUE) { break L94; }
   l3 = 6;
   break L1;
  }
  L95: {
   L96: {
    final long t97 = l11 = l5 + (l10 = (l5 == 0L) ? 4096L : 0L);
    final long t98 = l8 + 72L;
    final int t99 = l3;
    if ((t97 - (l12 = t99 != 0 ? t98 : 83372L)) + Long.MIN_VALUE >= l0 + Long.MIN_VALUE) { break L96; }
    l7 = l0 & 3L;
    l9 = 0L;
    L100: {
     if (l0 + Long.MIN_VALUE < -9223372036854775804L) { break L100; }
     l6 = l0 & -4L;
     l9 = 0L;
     L101: while (true) {
      b[((int) (l0 = l11 + l9)) - 58912] = (byte) (b[((int) (l1 = l12 + l9)) - 58912] & 0xff);
      b[((int) (l0 + 1L)) - 58912] = (byte) (b[((int) (l1 + 1L)) - 58912] & 0xff);
      b[((int) (l0 + 2L)) - 58912] = (byte) (b[((int) (l1 + 2L)) - 58912] & 0xff);
      b[((int) (l0 + 3L)) - 58912] = (byte) (b[((int) (l1 + 3L)) - 58912] & 0xff);
      if (l6 != (l9 = l9 + 4L)) { continue L101; }
      break L101;
     }
     if (l7 == 0L) { break L95; }
    }
    l0 = l12 + l9;
    l9 = l5 + (l10 + l9);
    L102: while (true) {
     b[((int) l9) - 58912] = (byte) (b[((int) l0) - 58912] & 0xff);
     l9 = l9 + 1L;
     l0 = l0 + 1L;
     if ((l7 = l7 + -1L) != 0L) { continue L102; }
     break L95;
    }
   }
   if (l0 == 0L) { break L95; }
   m.copy((int) l11, (int) l12, (int) l0);
   l3 = 0;
   break L1;
  }
  l3 = 0;
 }
 m.g0 = l8 + 688L;
 return l3;
}

static int f366(State m, long l0, long l1, int l2, int l3, long l4) {
 final byte[] b = m.bytes;
 long l5 = 0;
 long l6 = 0;
 int l7 = 0;
 L1: {
  L2: {
   if ((l5 = m.g0) < 16L) { break L2; }
   l0 = l0 + ((l0 == 0L) ? 4096L : 0L);
   L3: {
    L4: {
     L5: {
      if (l3 + Integer.MIN_VALUE < -2147483643) { break L5; }
      if (l2 + Integer.MIN_VALUE > -2147483639) { break L4; }
      if (l3 != 5) { break L4; }
      l2 = Core7.f234(m, l0, l1, l2, l4);
      m.g0 = l5;
      final int t6 = l2;
      return t6;
     }
     if (l2 + Integer.MIN_VALUE < -2147483638) { break L3; }
    }
    Words.put64(b, ((int) l4) - 58888, 0L);
    Words.put64(b, ((int) l4) - 58896, 0L);
    Words.put64(b, ((int) l4) - 58904, 0L);
    Words.put64(b, ((int) l4) - 58912, 0L);
    m.g0 = l5;
    return 8;
   }
   l3 = b[((int) ((l6 = (l3 & 0xffffffffL) << 1L) + 98010L)) - 58912] & 0xff;
   l7 = b[((int) (l6 + 98009L)) - 58912] & 0xff;
   if (l2 + Integer.MIN_VALUE < -2147483643) { break L1; }
   l2 = Core7.f232(m, l0, l1, l2, l7, l3, l4);
   m.g0 = l5;
   final int t7 = l2;
   return t7;
  }
  throw State.trap();
 }
 l2 = Core7.f233(m, l0, l1, l2, l7, l3, l4);
 m.g0 = l5;
 return l2;
}

static int f368(State m, long l0, long l1, long l2, long l3, long l4, long l5, long l6, int l7, int l8, long l9, long l10, long l11, long l12) {
 final byte[] b = m.bytes;
 long l13 = 0;
 long l14 = 0;
 long l15 = 0;
 long l16 = 0;
 int l17 = 0;
 int l18 = 0;
 m.g0 = l13 = m.g0 - 32L;
 L1: {
  if ((l14 = l13) < 16L) { break L1; }
  l17 = 8;
  L2: {
   if (l7 + Integer.MIN_VALUE > -2147483639) { break L2; }
   if (l8 + Integer.MIN_VALUE > -2147483643) { break L2; }
   L3: {
    final long t4 = l12;
    final long t5 = l13 = l3 - ((l3 != 0L) ? 1L : 0L);
    final int t6 = (l12 + Long.MIN_VALUE < l13 + Long.MIN_VALUE) ? 1 : 0;
    final long t7 = l13 = t6 != 0 ? t4 : t5;
    final long t8 = l10;
    final int t9 = (l13 + Long.MIN_VALUE < l10 + Long.MIN_VALUE) ? 1 : 0;
    if ((l15 = t9 != 0 ? t7 : t8) == 0L) { break L3; }
    l10 = l11 + ((l11 == 0L) ? 4096L : 0L);
    l3 = l9 + ((l9 == 0L) ? 4096L : 0L);
    l16 = l4 + ((l4 == 0L) ? 4096L : 0L);
    l13 = l2 + ((l2 == 0L) ? 4096L : 0L);
    l0 = l0 + ((l0 == 0L) ? 4096L : 0L);
    l2 = l6 >>> 3L;
    l12 = l6 & 7L;
    L10: while (true) {
     l18 = 0;
     L11: {
      if ((l17 = ((l11 = (l12 >>> 3L) + l2) + Long.MIN_VALUE >= l5 + Long.MIN_VALUE) ? 1 : 0) != 0) { break L11; }
      l18 = b[((int) (l16 + l11)) - 58912] & 0xff;
     }
     l9 = Words.get64(b, ((int) (l13 + 8L)) - 58912);
     l4 = Words.get64(b, ((int) l13) - 58912);
     l11 = 0L;
     L12: {
      L13: {
       if (l17 != 0) { break L13; }
       l17 = 10;
       if ((((l18 & 255) >>> (((int) l12) & 7)) & 1) == 0) { break L12; }
      }
      l17 = 6;
      if (l9 + Long.MIN_VALUE < l4 + Long.MIN_VALUE) { break L12; }
      if (l1 + Long.MIN_VALUE < l9 + Long.MIN_VALUE) { break L12; }
      Words.put64(b, ((int) l14) - 58888, 0L);
      Words.put64(b, ((int) l14) - 58896, 0L);
      Words.put64(b, ((int) l14) - 58904, 0L);
      Words.put64(b, ((int) l14) - 58912, 0L);
      l17 = Core8.f288(m, l0 + l4, l9 - l4, l7, l8, l14);
      l11 = Words.get64(b, ((int) l14) - 58912);
     }
     Words.put64(b, ((int) l3) - 58912, l11);
     Words.put32(b, ((int) l10) - 58912, l17);
     l12 = l12 + 1L;
     l3 = l3 + 8L;
     l13 = l13 + 8L;
     l10 = l10 + 4L;
     if (!((l15 = l15 + -1L) == 0L)) { continue L10; }
     break L10;
    }
   }
   l17 = 0;
  }
  m.g0 = l14 + 32L;
  final int t14 = l17;
  return t14;
 }
 throw State.trap();
}

static int f370(State m, long l0, long l1, long l2, long l3, long l4, long l5, long l6, int l7, int l8, long l9, long l10, long l11, long l12) {
 final byte[] b = m.bytes;
 long l13 = 0;
 long l14 = 0;
 long l15 = 0;
 long l16 = 0;
 long l17 = 0;
 int l18 = 0;
 int l19 = 0;
 m.g0 = l13 = m.g0 - 32L;
 L1: {
  if ((l14 = l13) < 16L) { break L1; }
  l18 = 8;
  L2: {
   if (l7 + Integer.MIN_VALUE > -2147483639) { break L2; }
   if (l8 + Integer.MIN_VALUE > -2147483643) { break L2; }
   L3: {
    final long t4 = l12;
    final long t5 = l13 = l3 - ((l3 != 0L) ? 1L : 0L);
    final int t6 = (l12 + Long.MIN_VALUE < l13 + Long.MIN_VALUE) ? 1 : 0;
    final long t7 = l13 = t6 != 0 ? t4 : t5;
    final long t8 = l10;
    final int t9 = (l13 + Long.MIN_VALUE < l10 + Long.MIN_VALUE) ? 1 : 0;
    if ((l15 = t9 != 0 ? t7 : t8) == 0L) { break L3; }
    l3 = l11 + ((l11 == 0L) ? 4096L : 0L);
    l13 = l9 + ((l9 == 0L) ? 4096L : 0L);
    l16 = l4 + ((l4 == 0L) ? 4096L : 0L);
    l12 = l2 + ((l2 == 0L) ? 4096L : 0L);
    l17 = l0 + ((l0 == 0L) ? 4096L : 0L);
    l0 = l6 >>> 3L;
    l10 = l6 & 7L;
    L10: while (true) {
     l19 = 0;
     L11: {
      if ((l18 = ((l11 = (l10 >>> 3L) + l0) + Long.MIN_VALUE >= l5 + Long.MIN_VALUE) ? 1 : 0) != 0) { break L11; }
      l19 = b[((int) (l16 + l11)) - 58912] & 0xff;
     }
     l4 = Words.get64(b, ((int) (l12 + 8L)) - 58912);
     l2 = Words.get64(b, ((int) l12) - 58912);
     l11 = 0L;
     L12: {
      L13: {
       if (l18 != 0) { break L13; }
       l18 = 10;
       if ((((l19 & 255) >>> (((int) l10) & 7)) & 1) != 0) { break L13; }
       l9 = 0L;
       break L12;
      }
      l18 = 6;
      L14: {
       if (l4 + Long.MIN_VALUE >= l2 + Long.MIN_VALUE) { break L14; }
       l9 = 0L;
       break L12;
      }
      l9 = 0L;
      if (l1 + Long.MIN_VALUE < l4 + Long.MIN_VALUE) { break L12; }
      Words.put64(b, ((int) l14) - 58888, 0L);
      Words.put64(b, ((int) l14) - 58896, 0L);
      Words.put64(b, ((int) l14) - 58904, 0L);
      Words.put64(b, ((int) l14) - 58912, 0L);
      l18 = Core8.f288(m, l17 + l2, l4 - l2, l7, l8, l14);
      l9 = Words.get64(b, ((int) l14) - 58904);
      l11 = Words.get64(b, ((int) l14) - 58912);
     }
     Words.put64(b, ((int) l13) - 58912, l11);
     Words.put64(b, ((int) (l13 + 8L)) - 58912, l9);
     Words.put32(b, ((int) l3) - 58912, l18);
     l10 = l10 + 1L;
     l12 = l12 + 8L;
     l13 = l13 + 16L;
     l3 = l3 + 4L;
     if (!((l15 = l15 + -1L) == 0L)) { continue L10; }
     break L10;
    }
   }
   l18 = 0;
  }
  m.g0 = l14 + 32L;
  final int t15 = l18;
  return t15;
 }
 throw State.trap();
}

static int f372(State m, long l0, long l1, int l2, int l3, int l4, int l5, long l6, long l7, long l8) {
 final byte[] b = m.bytes;
 long l9 = 0;
 long l10 = 0;
 long l11 = 0;
 long l12 = 0;
 long l13 = 0;
 long l14 = 0;
 long l15 = 0;
 long l16 = 0;
 long l17 = 0;
 long l18 = 0;
 long l19 = 0;
 long l20 = 0;
 long l21 = 0;
 long l22 = 0;
 long l23 = 0;
 long l24 = 0;
 long l25 = 0;
 long l26 = 0;
 int l27 = 0;
 int l28 = 0;
 int l29 = 0;
 int l30 = 0;
 int l31 = 0;
 int l32 = 0;
 int l33 = 0;
 int l34 = 0;
 m.g0 = l9 = m.g0 - 272L;
 L1: {
  if ((l10 = l9) < 16L) { break L1; }
  Words.put64(b, ((int) l8) - 58912, 0L);
  l27 = 8;
  L2: {
   if (l2 + Integer.MIN_VALUE > -2147483647) { break L2; }
   if (l3 + Integer.MIN_VALUE > -2147483633) { break L2; }
   L3: {
    L4: {
     if (l4 + Integer.MIN_VALUE < -2147483643) { break L4; }
     l28 = l4 = (l4 == 5) ? 1 : 0;
     break L3;
    }
    final int t5 = b[((int) ((l9 = (l4 & 0xffffffffL) << 1L) + 98010L)) - 58912] & 0xff;
    final int t6 = l4 = (((1L << l9) & 340L) != 0L) ? 1 : 0;
    l28 = t6 != 0 ? t5 : 0;
   }
   if ((l5 & -509) != 0) { break L2; }
   if (l4 == 0) { break L2; }
   l11 = l1;
   l9 = l12 = l0 + ((l0 == 0L) ? 4096L : 0L);
   L7: {
    L8: {
     L9: {
      if (l1 + Long.MIN_VALUE < -9223372036854775804L) { break L9; }
      l9 = l12;
      l11 = l1;
      L10: while (true) {
       if (((Words.get32(b, ((int) l9) - 58912) + 16776990) & 12632312) != 8421376) { break L8; }
       l9 = l9 + 3L;
       if ((l11 = l11 + -3L) + Long.MIN_VALUE > -9223372036854775805L) { continue L10; }
       break L10;
      }
     }
     if (l11 + Long.MIN_VALUE > -9223372036854775805L) { break L8; }
     L11: {
      switch ((int) l11) {
      case 1: case 2: break L8;
      case 3: break L11;
      default: break L7;
      }
     }
     if (((((Words.get16(b, ((int) l9) - 58912) & 0xffff) | ((b[((int) (l9 + 2L)) - 58912] & 0xff) << 16)) + 16776990) & 12632312) == 8421376) { break L7; }
    }
    l27 = 5;
    if (Core1.f6(m, l12, l1) == 0) { break L2; }
   }
   l29 = (l3 + Integer.MIN_VALUE < -2147483632) ? l3 : 0;
   Words.put64(b, ((int) l10) - 58824, 0L);
   Words.put64(b, ((int) l10) - 58832, l7);
   Words.put64(b, ((int) l10) - 58840, l6 + ((l6 == 0L) ? 4096L : 0L));
   l13 = ((((((((l5 >>> 7) & 1) & 0xffffffffL) << 40L) | ((l5 + Integer.MIN_VALUE > -2147483393) ? 281474976710656L : 0L)) | ((((((l5 << 12) & 65536) | ((l5 << 5) & 256)) | ((l5 >>> 2) & 1)) | (l30 = (l5 << 19) & 16777216)) & 0xffffffffL)) << 8L) | (((l31 = (l5 >>> 6) & 1) & 0xffffffffL) << 40L)) | ((l28 & 0xffffffffL) & 255L);
   l14 = l10 + 208L;
   l32 = 0;
   l15 = 0L;
   l27 = 0;
   l16 = l12;
   l17 = l1;
   L12: while (true) {
    Words.put64(b, ((int) l10) - 58672, 0L);
    Words.put64(b, ((int) l10) - 58680, 0L);
    Words.put64(b, ((int) l10) - 58688, 0L);
    Words.put64(b, ((int) l10) - 58696, 0L);
    Words.put64(b, ((int) l10) - 58704, 0L);
    Words.put64(b, ((int) l10) - 58712, 0L);
    Words.put64(b, ((int) l10) - 58720, 0L);
    Core6.f184(m, l10 + 192L, l2, l29, l12, l1, l16, l17);
    L13: {
     L14: {
      L15: {
       L16: {
        if ((b[((int) l10) - 58720] & 0xff) != 1) { break L16; }
        l17 = Words.get64(b, ((int) l10) - 58672);
        l16 = Words.get64(b, ((int) l10) - 58680);
        l18 = Words.get64(b, ((int) l10) - 58688);
        l19 = Words.get64(b, ((int) l10) - 58696);
        l20 = Words.get64(b, ((int) l10) - 58704);
        l21 = Words.get64(b, ((int) l10) - 58712);
        L17: {
         if ((l32 & 1) == 0) { break L17; }
         Words.put64(b, ((int) l10) - 58680, l17);
         Words.put64(b, ((int) l10) - 58688, l16);
         Words.put64(b, ((int) l10) - 58696, l18);
         Words.put64(b, ((int) l10) - 58704, l19);
         Words.put64(b, ((int) l10) - 58712, l20);
         Words.put64(b, ((int) l10) - 58720, l21);
         if (Core7.f235(m, l15, l10 + 192L) != 0) { break L13; }
        }
        l9 = l19;
        l0 = l18;
        L18: {
         L19: while (true) {
          if (l0 == 0L) { break L18; }
          l27 = (l4 = (int) b[((int) l9) - 58912]) & 255;
          l11 = 1L;
          L20: {
           if (l4 > -1) { break L20; }
           l5 = (b[((int) l9) - 58911] & 0xff) & 63;
           L21: {
            if (l4 + Integer.MIN_VALUE > 2147483615) { break L21; }
            l27 = ((l27 << 6) & 1984) | l5;
            l11 = 2L;
            break L20;
           }
           l3 = (b[((int) l9) - 58910] & 0xff) & 63;
           L22: {
            if (l4 + Integer.MIN_VALUE > 2147483631) { break L22; }
            l27 = ((l5 << 6) | ((l27 << 12) & 61440)) | l3;
            l11 = 3L;
            break L20;
           }
           l27 = ((l3 << 6) | ((l5 << 12) | ((l27 << 18) & 1835008))) | ((b[((int) l9) - 58909] & 0xff) & 63);
           l11 = 4L;
          }
          if ((l27 + -48) + Integer.MIN_VALUE < -2147483638) { break L15; }
          l0 = l0 - l11;
          l9 = l9 + l11;
          if ((l27 + -65296) + Integer.MIN_VALUE > -2147483639) { continue L19; }
          break L15;
         }
        }
        Words.put64(b, ((int) l10) - 58680, l17);
        Words.put64(b, ((int) l10) - 58688, l16);
        Words.put64(b, ((int) l10) - 58696, l18);
        Words.put64(b, ((int) l10) - 58704, l19);
        Words.put64(b, ((int) l10) - 58712, l20);
        Words.put64(b, ((int) l10) - 58720, l21);
        if (Core7.f238(m, l13, l10 + 192L) != 0) { break L15; }
        break L14;
       }
       Core2.f53(m, l10 + 72L, l16, l17);
       Words.put64(b, ((int) l8) - 58912, l9 = Words.get64(b, ((int) l10) - 58824));
       l27 = (l9 + Long.MIN_VALUE > l7 + Long.MIN_VALUE) ? 6 : 0;
       break L2;
      }
      l9 = l18 + l20;
      l22 = l16;
      l23 = l17;
      L23: while (true) {
       Words.put64(b, ((int) l10) - 58672, 0L);
       Words.put64(b, ((int) l10) - 58680, 0L);
       Words.put64(b, ((int) l10) - 58688, 0L);
       Words.put64(b, ((int) l10) - 58696, 0L);
       Words.put64(b, ((int) l10) - 58704, 0L);
       Words.put64(b, ((int) l10) - 58712, 0L);
       Words.put64(b, ((int) l10) - 58720, 0L);
       Core6.f184(m, l10 + 192L, l2, l29, l12, l1, l22, l23);
       l27 = 0;
       if ((b[((int) l10) - 58720] & 0xff) != 1) { break L13; }
       l22 = Words.get64(b, ((int) l10) - 58680);
       l6 = Words.get64(b, ((int) l10) - 58688);
       l24 = Words.get64(b, ((int) l10) - 58696);
       l25 = Words.get64(b, ((int) l10) - 58704);
       l26 = Words.get64(b, ((int) l10) - 58712);
       Words.put64(b, ((int) l10) - 58728, l23 = Words.get64(b, ((int) l10) - 58672));
       Words.put64(b, ((int) l10) - 58736, l22);
       Words.put64(b, ((int) l10) - 58744, l6);
       Words.put64(b, ((int) l10) - 58752, l24);
       Words.put64(b, ((int) l10) - 58760, l25);
       Words.put64(b, ((int) l10) - 58768, l26);
       if (Core7.f235(m, l9, l10 + 144L) == 0) { break L13; }
       l9 = l24;
       l0 = l6;
       L24: {
        L25: {
         L26: while (true) {
          if (l0 == 0L) { break L25; }
          l27 = (l4 = (int) b[((int) l9) - 58912]) & 255;
          l11 = 1L;
          L27: {
           if (l4 > -1) { break L27; }
           l5 = (b[((int) l9) - 58911] & 0xff) & 63;
           L28: {
            if (l4 + Integer.MIN_VALUE > 2147483615) { break L28; }
            l27 = ((l27 << 6) & 1984) | l5;
            l11 = 2L;
            break L27;
           }
           l3 = (b[((int) l9) - 58910] & 0xff) & 63;
           L29: {
            if (l4 + Integer.MIN_VALUE > 2147483631) { break L29; }
            l27 = ((l5 << 6) | ((l27 << 12) & 61440)) | l3;
            l11 = 3L;
            break L27;
           }
           l27 = ((l3 << 6) | ((l5 << 12) | ((l27 << 18) & 1835008))) | ((b[((int) l9) - 58909] & 0xff) & 63);
           l11 = 4L;
          }
          if ((l27 + -48) + Integer.MIN_VALUE < -2147483638) { break L24; }
          l0 = l0 - l11;
          l9 = l9 + l11;
          if ((l27 + -65296) + Integer.MIN_VALUE >= -2147483638) { continue L26; }
          break L24;
         }
        }
        Words.put64(b, ((int) l10) - 58680, l23);
        Words.put64(b, ((int) l10) - 58688, l22);
        Words.put64(b, ((int) l10) - 58696, l6);
        Words.put64(b, ((int) l10) - 58704, l24);
        Words.put64(b, ((int) l10) - 58712, l25);
        Words.put64(b, ((int) l10) - 58720, l26);
        if (Core7.f238(m, l13, l10 + 192L) == 0) { break L14; }
       }
       l9 = l6 + l25;
       continue L23;
      }
     }
     l27 = 1;
    }
    Core2.f53(m, l10 + 72L, l21 + (l9 = ((l32 & 1) != 0) ? l15 : 0L), l20 - l9);
    L30: {
     L31: {
      if ((l27 & 1) == 0) { break L31; }
      Core2.f53(m, l10 + 72L, l19, l18);
      break L30;
     }
     Words.put64(b, ((int) l10) - 58776, l17);
     Words.put64(b, ((int) l10) - 58784, l16);
     Words.put64(b, ((int) l10) - 58808, l20);
     Words.put64(b, ((int) l10) - 58816, l21);
     Words.put64(b, ((int) l10) - 58792, l18);
     Words.put64(b, ((int) l10) - 58800, l19);
     L32: {
      if (Core7.f238(m, l13, l10 + 96L) == 0) { break L32; }
      L33: {
       L34: {
        L35: {
         if (Core7.f240(m, l19, l18) != 0) { break L35; }
         l4 = Core7.f241(m, l19, l18);
         L36: {
          if (l30 != 0) { break L36; }
          if (l4 != 0) { break L32; }
          l9 = l19;
          l0 = l18;
          L37: {
           L38: while (true) {
            if (l0 == 0L) { break L37; }
            l4 = (l5 = (int) b[((int) l9) - 58912]) & 255;
            l11 = 1L;
            L39: {
             if (l5 > -1) { break L39; }
             l3 = (b[((int) l9) - 58911] & 0xff) & 63;
             L40: {
              if (l5 + Integer.MIN_VALUE > 2147483615) { break L40; }
              l4 = ((l4 << 6) & 1984) | l3;
              l11 = 2L;
              break L39;
             }
             l32 = (b[((int) l9) - 58910] & 0xff) & 63;
             L41: {
              if (l5 + Integer.MIN_VALUE > 2147483631) { break L41; }
              l4 = ((l3 << 6) | ((l4 << 12) & 61440)) | l32;
              l11 = 3L;
              break L39;
             }
             l4 = ((l32 << 6) | ((l3 << 12) | ((l4 << 18) & 1835008))) | ((b[((int) l9) - 58909] & 0xff) & 63);
             l11 = 4L;
            }
            l0 = l0 - l11;
            l9 = l9 + l11;
            if (l4 != 21448) { continue L38; }
            break L32;
           }
          }
          Words.put64(b, ((int) l10) - 58704, 0L);
          Words.put64(b, ((int) l10) - 58712, 0L);
          Words.put64(b, ((int) l10) - 58720, 0L);
          Core7.f242(m, l10 + 192L, l19, l18);
          L42: {
           if ((b[((int) l10) - 58720] & 0xff) != 1) { break L42; }
           l9 = Words.get64(b, ((int) l10) - 58712);
           Core2.f53(m, l10 + 72L, l19, l18 - (l11 = Words.get64(b, ((int) l10) - 58704)));
           Core8.f252(m, l10 + 24L, l10 + 72L, l28, l9, l11);
           l4 = b[((int) l10) - 58887] & 0xff;
           break L33;
          }
          if (l18 == 0L) { break L34; }
          l4 = (l5 = (int) b[((int) l19) - 58912]) & 255;
          l9 = 1L;
          L43: {
           if (l5 > -1) { break L43; }
           l3 = (b[((int) l19) - 58911] & 0xff) & 63;
           L44: {
            if (l5 + Integer.MIN_VALUE > 2147483615) { break L44; }
            l4 = ((l4 << 6) & 1984) | l3;
            l9 = 2L;
            break L43;
           }
           l32 = (b[((int) l19) - 58910] & 0xff) & 63;
           L45: {
            if (l5 + Integer.MIN_VALUE > 2147483631) { break L45; }
            l4 = ((l3 << 6) | ((l4 << 12) & 61440)) | l32;
            l9 = 3L;
            break L43;
           }
           l4 = ((l32 << 6) | ((l3 << 12) | ((l4 << 18) & 1835008))) | ((b[((int) l19) - 58909] & 0xff) & 63);
           l9 = 4L;
          }
          L46: {
           L47: {
            if (l4 > 35999) { break L47; }
            if (l4 == 45) { break L46; }
            if (l4 == 8722) { break L46; }
            break L34;
           }
           if (l4 == 36000) { break L46; }
           if (l4 == 65293) { break L46; }
           if (l4 != 36127) { break L34; }
          }
          Core2.f53(m, l10 + 72L, 77252L, 1L);
          Core8.f252(m, l10 + 40L, l10 + 72L, l28, l19 + l9, l18 - l9);
          l4 = b[((int) l10) - 58871] & 0xff;
          break L33;
         }
         L48: {
          if (l4 == 0) { break L48; }
          l9 = l19;
          l0 = l18;
          L49: while (true) {
           if (l0 == 0L) { break L32; }
           l4 = (l5 = (int) b[((int) l9) - 58912]) & 255;
           l11 = 1L;
           L50: {
            if (l5 > -1) { break L50; }
            l3 = (b[((int) l9) - 58911] & 0xff) & 63;
            L51: {
             if (l5 + Integer.MIN_VALUE > 2147483615) { break L51; }
             l4 = ((l4 << 6) & 1984) | l3;
             l11 = 2L;
             break L50;
            }
            l32 = (b[((int) l9) - 58910] & 0xff) & 63;
            L52: {
             if (l5 + Integer.MIN_VALUE > 2147483631) { break L52; }
             l4 = ((l3 << 6) | ((l4 << 12) & 61440)) | l32;
             l11 = 3L;
             break L50;
            }
            l4 = ((l32 << 6) | ((l3 << 12) | ((l4 << 18) & 1835008))) | ((b[((int) l9) - 58909] & 0xff) & 63);
            l11 = 4L;
           }
           Core2.f61(m, l10 + 64L, l4);
           L53: {
            if ((b[((int) l10) - 58848] & 0xff) != 1) { break L53; }
            if (((b[((int) l10) - 58847] & 0xff) & 255) != 0) { break L48; }
           }
           if (l4 == 38646) { break L48; }
           l9 = l9 + l11;
           l0 = l0 - l11;
           if (l4 != 12295) { continue L49; }
           break L49;
          }
         }
         Words.put64(b, ((int) l10) - 58664, 0L);
         Words.put64(b, ((int) l10) - 58672, 0L);
         Words.put64(b, ((int) l10) - 58680, 0L);
         Words.put64(b, ((int) l10) - 58688, 0L);
         Words.put64(b, ((int) l10) - 58696, 0L);
         Words.put64(b, ((int) l10) - 58704, 0L);
         Words.put64(b, ((int) l10) - 58712, 0L);
         Words.put64(b, ((int) l10) - 58720, 0L);
         Core3.f80(m, l10 + 192L, l19, l18, l28);
         Words.put64(b, ((int) l10) - 58768, Words.get64(b, ((int) l14) - 58912));
         Words.put64(b, ((int) l10) - 58760, Words.get64(b, ((int) l14) - 58904));
         Words.put64(b, ((int) l10) - 58752, Words.get64(b, ((int) l14) - 58896));
         Words.put64(b, ((int) l10) - 58744, Words.get64(b, ((int) l14) - 58888));
         Words.put64(b, ((int) l10) - 58736, Words.get64(b, ((int) l14) - 58880));
         Words.put64(b, ((int) l10) - 58728, Words.get64(b, ((int) l14) - 58872));
         if ((b[((int) l10) - 58720] & 0xff) != 0) { break L32; }
         m.fill((int) (l10 + 192L), 0, (int) 80L);
         Core2.f52(m, l10 + 48L, l10 + 192L, l10 + 144L);
         Core2.f53(m, l10 + 72L, Words.get64(b, ((int) l10) - 58864), Words.get64(b, ((int) l10) - 58856));
         break L30;
        }
        if (l31 == 0) { break L32; }
        if (l18 == 0L) { break L30; }
        l3 = 0;
        l11 = l18;
        L54: while (true) {
         l4 = (l5 = (int) b[((int) l19) - 58912]) & 255;
         l9 = 1L;
         L55: {
          if (l5 > -1) { break L55; }
          l32 = (b[((int) l19) - 58911] & 0xff) & 63;
          L56: {
           if (l5 + Integer.MIN_VALUE > 2147483615) { break L56; }
           l4 = ((l4 << 6) & 1984) | l32;
           l9 = 2L;
           break L55;
          }
          l33 = (b[((int) l19) - 58910] & 0xff) & 63;
          L57: {
           if (l5 + Integer.MIN_VALUE > 2147483631) { break L57; }
           l4 = ((l32 << 6) | ((l4 << 12) & 61440)) | l33;
           l9 = 3L;
           break L55;
          }
          l4 = ((l33 << 6) | ((l32 << 12) | ((l4 << 18) & 1835008))) | ((b[((int) l19) - 58909] & 0xff) & 63);
          l9 = 4L;
         }
         l11 = l11 - l9;
         l19 = l19 + l9;
         l5 = 0;
         L58: {
          if ((l3 & 1) != 0) { break L58; }
          L59: {
           if (l4 == 65296) { break L59; }
           if (l4 != 48) { break L58; }
          }
          if (l11 == 0L) { break L58; }
          l5 = (l32 = (int) b[((int) l19) - 58912]) & 255;
          L60: {
           if (l32 > -1) { break L60; }
           l33 = (b[((int) l19) - 58911] & 0xff) & 63;
           L61: {
            if (l32 + Integer.MIN_VALUE > 2147483615) { break L61; }
            l5 = ((l5 << 6) & 1984) | l33;
            break L60;
           }
           l34 = (b[((int) l19) - 58910] & 0xff) & 63;
           L62: {
            if (l32 + Integer.MIN_VALUE > 2147483631) { break L62; }
            l5 = ((l33 << 6) | ((l5 << 12) & 61440)) | l34;
            break L60;
           }
           l5 = ((l34 << 6) | ((l33 << 12) | ((l5 << 18) & 1835008))) | ((b[((int) l19) - 58909] & 0xff) & 63);
          }
          l5 = (((l5 + -48) + Integer.MIN_VALUE < -2147483638) | ((l5 + -65296) + Integer.MIN_VALUE < -2147483638)) ? 1 : 0;
         }
         Core7.f244(m, l10 + 8L, l5, l4);
         Core2.f53(m, l10 + 72L, Words.get64(b, ((int) l10) - 58904), Words.get64(b, ((int) l10) - 58896));
         L63: {
          L64: {
           if (((l3 | l5) & 1) == 0) { break L64; }
           l3 = l3 & (l5 ^ 1);
           break L63;
          }
          l3 = (((l4 + -48) + Integer.MIN_VALUE < -2147483638) | ((l4 + -65296) + Integer.MIN_VALUE < -2147483638)) ? 1 : 0;
         }
         if (!(l11 == 0L)) { continue L54; }
         break L30;
        }
       }
       Core8.f252(m, l10 + 32L, l10 + 72L, l28, l19, l18);
       l4 = b[((int) l10) - 58879] & 0xff;
      }
      if ((l4 & 1) != 0) { break L30; }
     }
     Core2.f53(m, l10 + 72L, l19, l18);
    }
    l15 = l18 + l20;
    l32 = 1;
    continue L12;
   }
  }
  m.g0 = l10 + 272L;
  final int t65 = l27;
  return t65;
 }
 throw State.trap();
}

static int f374(State m, long l0, long l1, int l2, long l3) {
 final byte[] b = m.bytes;
 long l4 = 0;
 long l5 = 0;
 long l6 = 0;
 int l7 = 0;
 int l8 = 0;
 m.g0 = l4 = m.g0 - 16L;
 L1: {
  L2: {
   L3: {
    if ((l5 = l4) < 16L) { break L3; }
    Words.put32(b, ((int) l3) - 58912, 0);
    b[((int) l5) - 58898] = (byte) 0;
    Words.put16(b, ((int) l5) - 58900, (short) 0);
    L4: {
     L5: {
      if (l2 + Integer.MIN_VALUE > -2147483644) { break L5; }
      if (((1L << (l4 = (l2 & 0xffffffffL) << 1L)) & 340L) == 0L) { break L4; }
      l7 = b[((int) (l4 + 98010L)) - 58912] & 0xff;
      break L2;
     }
     l7 = 1;
     if (l2 == 5) { break L2; }
    }
    l2 = 8;
    break L1;
   }
   throw State.trap();
  }
  l4 = l1;
  l0 = l6 = l0 + ((l0 == 0L) ? 4096L : 0L);
  L6: {
   L7: {
    L8: {
     if (l1 + Long.MIN_VALUE < -9223372036854775804L) { break L8; }
     l0 = l6;
     l4 = l1;
     L9: while (true) {
      if (((Words.get32(b, ((int) l0) - 58912) + 16776990) & 12632312) != 8421376) { break L7; }
      l0 = l0 + 3L;
      if ((l4 = l4 + -3L) + Long.MIN_VALUE > -9223372036854775805L) { continue L9; }
      break L9;
     }
    }
    if (l4 + Long.MIN_VALUE > -9223372036854775805L) { break L7; }
    L10: {
     switch ((int) l4) {
     case 1: case 2: break L7;
     case 3: break L10;
     default: break L6;
     }
    }
    if (((((Words.get16(b, ((int) l0) - 58912) & 0xffff) | ((b[((int) (l0 + 2L)) - 58912] & 0xff) << 16)) + 16776990) & 12632312) == 8421376) { break L6; }
   }
   if (Core1.f6(m, l6, l1) != 0) { break L6; }
   l2 = 5;
   break L1;
  }
  Core8.f255(m, l5 + 12L, l6, l1, l7);
  l2 = 0;
  if ((b[((int) l5) - 58900] & 0xff) != 1) { break L1; }
  l7 = 16;
  l8 = b[((int) l5) - 58898] & 0xff;
  L11: {
   L12: {
    L13: {
     switch ((int) (b[((int) l5) - 58899] & 0xffL)) {
     case 1: break L12;
     case 2: break L11;
     default: break L13;
     }
    }
    l7 = l8 + 1;
    break L11;
   }
   l7 = l8 + 10;
  }
  Words.put32(b, ((int) l3) - 58912, l7);
 }
 m.g0 = l5 + 16L;
 return l2;
}

static int f376(State m, long l0, long l1, int l2, int l3, long l4, long l5, long l6) {
 final byte[] b = m.bytes;
 long l7 = 0;
 long l8 = 0;
 long l9 = 0;
 long l10 = 0;
 long l11 = 0;
 long l12 = 0;
 long l13 = 0;
 long l14 = 0;
 long l15 = 0;
 int l16 = 0;
 int l17 = 0;
 int l18 = 0;
 m.g0 = l7 = m.g0 - 864L;
 L1: {
  L2: {
   L3: {
    L4: {
     L5: {
      if ((l7 = l7) < 16L) { break L5; }
      m.fill((int) (l7 + 140L), 0, (int) 512L);
      Words.put64(b, ((int) l6) - 58912, 0L);
      Words.put64(b, ((int) l7) - 58784, 0L);
      Words.put64(b, ((int) l7) - 58792, 0L);
      Words.put64(b, ((int) l7) - 58800, 0L);
      L6: {
       L7: {
        if (l2 + Integer.MIN_VALUE < -2147483643) { break L7; }
        l17 = l16 = (l2 == 5) ? 1 : 0;
        break L6;
       }
       final int t8 = b[((int) ((l8 = (l2 & 0xffffffffL) << 1L) + 98010L)) - 58912] & 0xff;
       final int t9 = l16 = (((1L << l8) & 340L) != 0L) ? 1 : 0;
       l17 = t9 != 0 ? t8 : 0;
      }
      l2 = 8;
      if (l3 + Integer.MIN_VALUE > -2147483646) { break L1; }
      if (l16 == 0) { break L1; }
      l8 = l1;
      l0 = l9 = l0 + ((l0 == 0L) ? 4096L : 0L);
      L10: {
       L11: {
        L12: {
         if (l1 + Long.MIN_VALUE < -9223372036854775804L) { break L12; }
         l0 = l9;
         l8 = l1;
         L13: while (true) {
          if (((Words.get32(b, ((int) l0) - 58912) + 16776990) & 12632312) != 8421376) { break L11; }
          l0 = l0 + 3L;
          if ((l8 = l8 + -3L) + Long.MIN_VALUE > -9223372036854775805L) { continue L13; }
          break L13;
         }
        }
        if (l8 + Long.MIN_VALUE > -9223372036854775805L) { break L11; }
        L14: {
         switch ((int) l8) {
         case 1: case 2: break L11;
         case 3: break L14;
         default: break L10;
         }
        }
        if (((((Words.get16(b, ((int) l0) - 58912) & 0xffff) | ((b[((int) (l0 + 2L)) - 58912] & 0xff) << 16)) + 16776990) & 12632312) == 8421376) { break L10; }
       }
       if (Core1.f6(m, l9, l1) != 0) { break L10; }
       l2 = 5;
       break L1;
      }
      m.fill((int) (l7 + 140L), 0, (int) 512L);
      Words.put64(b, ((int) l7) - 58784, 0L);
      Words.put64(b, ((int) l7) - 58792, 512L);
      Words.put64(b, ((int) l7) - 58800, l7 + 140L);
      Words.put64(b, ((int) l7) - 58256, 0L);
      Words.put64(b, ((int) l7) - 58248, 0L);
      Words.put64(b, ((int) l7) - 58240, 0L);
      Words.put64(b, ((int) l7) - 58232, 0L);
      Words.put64(b, ((int) l7) - 58224, 0L);
      Words.put64(b, ((int) l7) - 58216, 0L);
      Words.put64(b, ((int) l7) - 58208, 0L);
      Words.put64(b, ((int) l7) - 58200, 0L);
      Words.put16(b, ((int) l7) - 58260, (short) 0);
      b[((int) l7) - 58258] = (byte) 0;
      Core3.f80(m, l7 + 656L, l9, l1, l17);
      Core8.f255(m, l7 + 652L, l9, l1, l17);
      l0 = 0L;
      if ((b[((int) l7) - 58256] & 0xff) != 1) { break L2; }
      l0 = 0L;
      if (((b[((int) l7) - 58260] & 0xff) & 255) != 1) { break L2; }
      l2 = b[((int) l7) - 58259] & 0xff;
      l16 = b[((int) l7) - 58258] & 0xff;
      l10 = Words.get64(b, ((int) l7) - 58240);
      l17 = b[((int) l7) - 58248] & 0xff;
      m.fill((int) (l7 + 720L), 0, (int) 72L);
      Words.put32(b, ((int) l7) - 58116, 0);
      Words.put32(b, ((int) l7) - 58119, 0);
      Words.put64(b, ((int) l7) - 58056, 0L);
      Words.put64(b, ((int) l7) - 58064, 83372L);
      Words.put64(b, ((int) l7) - 58072, 0L);
      Words.put64(b, ((int) l7) - 58080, 83372L);
      Words.put64(b, ((int) l7) - 58088, 0L);
      Words.put64(b, ((int) l7) - 58096, l11 = (l17 == 1) ? l10 : 0L);
      Words.put64(b, ((int) l7) - 58104, l1);
      Words.put64(b, ((int) l7) - 58112, l9);
      b[((int) l7) - 58120] = (byte) (l3 = (l3 + Integer.MIN_VALUE < -2147483645) ? l3 : 0);
      L15: {
       L16: {
        if (l2 != 0) { break L16; }
        if ((l16 & 255) == 4) { break L15; }
       }
       l3 = 40;
       L17: {
        L18: {
         L19: {
          switch (l2) {
          case 1: break L19;
          case 2: break L17;
          default: break L18;
          }
         }
         l3 = l16 + 34;
         break L17;
        }
        l3 = b[State.far((int) ((l16 & 0xffffffffL) & 255L), 102800)] & 0xff;
       }
       Core2.f50(m, l7 + 792L, l7 + 112L, l3);
       break L3;
      }
      l8 = 0L;
      if (l11 == 0L) { break L4; }
      Core1.f30(m, l7 + 96L, l9, l1, l12 = l11 - ((l11 != 0L) ? 1L : 0L));
      l13 = Words.get64(b, ((int) l7) - 58808);
      l0 = Words.get64(b, ((int) l7) - 58816);
      Core1.f30(m, l7 + 80L, l9, l1, l11);
      l14 = Words.get64(b, ((int) l7) - 58824);
      l15 = Words.get64(b, ((int) l7) - 58832);
      L20: {
       L21: {
        L22: {
         if (Core1.f31(m, l0, l13, 98143L, 3L) == 0) { break L22; }
         l16 = 20998;
         if (Core1.f31(m, l15, l14, 98146L, 3L) != 0) { break L20; }
         l16 = 19975;
         L23: {
          if (Core1.f31(m, l15, l14, 98149L, 1L) == 0) { break L23; }
          l12 = l10;
          break L20;
         }
         l12 = l10;
         if (Core1.f31(m, l15, l14, 98150L, 1L) != 0) { break L20; }
         if (Core1.f31(m, l15, l14, 98142L, 1L) != 0) { break L21; }
         if (Core1.f31(m, l15, l14, 98151L, 3L) != 0) { break L21; }
         break L4;
        }
        l16 = 19975;
        L24: {
         if (Core1.f31(m, l15, l14, 98149L, 1L) == 0) { break L24; }
         l12 = l10;
         break L20;
        }
        l12 = l10;
        if (Core1.f31(m, l15, l14, 98150L, 1L) != 0) { break L20; }
        if (Core1.f31(m, l15, l14, 98142L, 1L) != 0) { break L21; }
        if (Core1.f31(m, l15, l14, 98151L, 3L) == 0) { break L4; }
       }
       L25: while (true) {
        if (l13 == 0L) { break L4; }
        l2 = (l16 = (int) b[((int) l0) - 58912]) & 255;
        l10 = 1L;
        L26: {
         if (l16 > -1) { break L26; }
         l17 = (b[((int) l0) - 58911] & 0xff) & 63;
         L27: {
          if (l16 + Integer.MIN_VALUE > 2147483615) { break L27; }
          l2 = ((l2 << 6) & 1984) | l17;
          l10 = 2L;
          break L26;
         }
         l18 = (b[((int) l0) - 58910] & 0xff) & 63;
         L28: {
          if (l16 + Integer.MIN_VALUE > 2147483631) { break L28; }
          l2 = ((l17 << 6) | ((l2 << 12) & 61440)) | l18;
          l10 = 3L;
          break L26;
         }
         l2 = ((l18 << 6) | ((l17 << 12) | ((l2 << 18) & 1835008))) | ((b[((int) l0) - 58909] & 0xff) & 63);
         l10 = 4L;
        }
        Core2.f63(m, l7 + 72L, l2);
        l16 = 28857;
        L29: {
         if ((b[((int) l7) - 58840] & 0xff) == 1) { break L29; }
         Core2.f61(m, l7 + 64L, l2);
         l0 = l0 + l10;
         l13 = l13 - l10;
         if ((b[((int) l7) - 58848] & 0xff) != 1) { continue L25; }
        }
        break L25;
       }
       l12 = l11;
      }
      Words.put64(b, ((int) l7) - 58128, 0L);
      Words.put64(b, ((int) l7) - 58136, 83372L);
      Words.put64(b, ((int) l7) - 58144, 0L);
      Words.put64(b, ((int) l7) - 58152, 83372L);
      Words.put32(b, ((int) l7) - 58156, l16);
      Words.put32(b, ((int) l7) - 58160, 1);
      Words.put64(b, ((int) l7) - 58168, l12);
      Words.put64(b, ((int) l7) - 58176, l1);
      Words.put64(b, ((int) l7) - 58184, l9);
      b[((int) l7) - 58192] = (byte) l3;
      Core2.f50(m, l7 + 720L, l7 + 112L, 2);
      break L3;
     }
     throw State.trap();
    }
    l0 = 0L;
    L30: {
     if (l1 + Long.MIN_VALUE < -9223372036854775776L) { break L30; }
     Core1.f25(m, l7 + 48L, l9, l1, l1);
     l8 = l1 - Words.get64(b, ((int) l7) - 58856);
     l0 = Words.get64(b, ((int) l7) - 58864);
    }
    l13 = l11 + 1L;
    L31: {
     if ((l1 - l0) + Long.MIN_VALUE < -9223372036854775800L) { break L31; }
     L32: while (true) {
      L33: {
       L34: {
        if (((l10 = Words.get64(b, ((int) (l9 + l0)) - 58912)) & 67553998437089520L) != 63050398541283552L) { break L34; }
        l8 = l8 + 3L;
        l0 = l0 + 9L;
        break L33;
       }
       if ((l10 & -9187201950435737472L) != 0L) { break L31; }
       l8 = l8 + 8L;
       l0 = l0 + 8L;
      }
      if ((l1 - l0) + Long.MIN_VALUE > -9223372036854775801L) { continue L32; }
      break L32;
     }
    }
    l2 = (l13 == 0L) ? 1 : 0;
    L35: {
     if (l0 + Long.MIN_VALUE >= l1 + Long.MIN_VALUE) { break L35; }
     L36: while (true) {
      l8 = l8 + 1L;
      if ((l0 = Words.get64(b, ((int) (((((b[((int) (l9 + l0)) - 58912] & 0xff) >>> 1) & 0xffffffffL) & 120L) + 66680L)) - 58912) + l0) + Long.MIN_VALUE < l1 + Long.MIN_VALUE) { continue L36; }
      break L36;
     }
    }
    l13 = l2 != 0 ? -1L : l13;
    Core1.f30(m, l7 + 32L, l9, l1, l11);
    L37: {
     L38: {
      L39: {
       if (Core1.f31(m, l0 = Words.get64(b, ((int) l7) - 58880), l10 = Words.get64(b, ((int) l7) - 58872), 98146L, 3L) == 0) { break L39; }
       if (l13 != l8) { break L38; }
       l2 = 41;
       break L37;
      }
      L40: {
       L41: {
        if (Core1.f31(m, l0, l10, 77254L, 1L) != 0) { break L41; }
        if (Core1.f31(m, l0, l10, 98154L, 3L) != 0) { break L41; }
        if (Core1.f31(m, l0, l10, 98157L, 3L) != 0) { break L41; }
        L42: {
         if (Core1.f31(m, l0, l10, 98160L, 3L) != 0) { break L42; }
         if (Core1.f31(m, l0, l10, 98163L, 3L) != 0) { break L42; }
         if (Core1.f31(m, l0, l10, 98142L, 1L) != 0) { break L40; }
         if (Core1.f31(m, l0, l10, 98151L, 3L) == 0) { break L38; }
         break L40;
        }
        if (Core8.f259(m, l9, l1, l11) == 0) { break L40; }
        l2 = 43;
        break L37;
       }
       l2 = 3;
       if (l13 == l8) { break L37; }
       Core1.f30(m, l7 + 16L, l9, l1, l11);
       l0 = Words.get64(b, ((int) l7) - 58888);
       l8 = Words.get64(b, ((int) l7) - 58896);
       Core2.f55(m, l7, l9, l1, l11);
       if (Core1.f31(m, l8, l0, Words.get64(b, ((int) l7) - 58912), Words.get64(b, ((int) l7) - 58904)) != 0) { break L37; }
       break L38;
      }
      if (Core8.f259(m, l9, l1, l11) != 0) { break L38; }
      l2 = 42;
      break L37;
     }
     l2 = 4;
    }
    Core2.f50(m, l7 + 792L, l7 + 112L, l2);
   }
   l0 = Words.get64(b, ((int) l7) - 58784);
  }
  Words.put64(b, ((int) l6) - 58912, l0 = ((l2 = (l0 + Long.MIN_VALUE < -9223372036854775295L) ? 1 : 0) != 0) ? l0 : 0L);
  L43: {
   if (l5 + Long.MIN_VALUE >= l0 + Long.MIN_VALUE) { break L43; }
   l2 = 6;
   break L1;
  }
  L44: {
   L45: {
    final long t46 = l5 = l4 + (l11 = (l4 == 0L) ? 4096L : 0L);
    final long t47 = l7 + 140L;
    final int t48 = l2;
    if ((t46 - (l6 = t48 != 0 ? t47 : 83372L)) + Long.MIN_VALUE >= l0 + Long.MIN_VALUE) { break L45; }
    l9 = l0 & 3L;
    l8 = 0L;
    L49: {
     if (l0 + Long.MIN_VALUE < -9223372036854775804L) { break L49; }
     l10 = l0 & -4L;
     l8 = 0L;
     L50: while (true) {
      b[((int) (l0 = l5 + l8)) - 58912] = (byte) (b[((int) (l1 = l6 + l8)) - 58912] & 0xff);
      b[((int) (l0 + 1L)) - 58912] = (byte) (b[((int) (l1 + 1L)) - 58912] & 0xff);
      b[((int) (l0 + 2L)) - 58912] = (byte) (b[((int) (l1 + 2L)) - 58912] & 0xff);
      b[((int) (l0 + 3L)) - 58912] = (byte) (b[((int) (l1 + 3L)) - 58912] & 0xff);
      if (l10 != (l8 = l8 + 4L)) { continue L50; }
      break L50;
     }
     if (l9 == 0L) { break L44; }
    }
    l0 = l6 + l8;
    l8 = l4 + (l11 + l8);
    L51: while (true) {
     b[((int) l8) - 58912] = (byte) (b[((int) l0) - 58912] & 0xff);
     l8 = l8 + 1L;
     l0 = l0 + 1L;
     if ((l9 = l9 + -1L) != 0L) { continue L51; }
     break L44;
    }
   }
   if (l0 == 0L) { break L44; }
   m.copy((int) l5, (int) l6, (int) l0);
   l2 = 0;
   break L1;
  }
  l2 = 0;
 }
 m.g0 = l7 + 864L;
 return l2;
}

static int f378(State m, long l0, long l1, int l2, long l3) {
 final byte[] b = m.bytes;
 long l4 = 0;
 long l5 = 0;
 long l6 = 0;
 long l7 = 0;
 int l8 = 0;
 m.g0 = l4 = m.g0 - 80L;
 L1: {
  L2: {
   L3: {
    if ((l4 = l4) < 16L) { break L3; }
    Words.put64(b, ((int) l3) - 58912, 0L);
    Words.put64(b, ((int) l3) - 58904, 0L);
    Words.put64(b, ((int) l3) - 58896, 0L);
    Words.put64(b, ((int) l3) - 58888, 0L);
    Words.put64(b, ((int) l3) - 58880, 0L);
    Words.put64(b, ((int) l3) - 58872, 0L);
    Words.put64(b, ((int) l3) - 58864, 0L);
    Words.put64(b, ((int) l4) - 58840, 0L);
    Words.put64(b, ((int) l4) - 58848, 0L);
    Words.put64(b, ((int) l4) - 58856, 0L);
    Words.put64(b, ((int) l4) - 58864, 0L);
    Words.put64(b, ((int) l4) - 58872, 0L);
    Words.put64(b, ((int) l4) - 58880, 0L);
    Words.put64(b, ((int) l4) - 58888, 0L);
    Words.put64(b, ((int) l4) - 58896, 0L);
    L4: {
     L5: {
      if (l2 + Integer.MIN_VALUE > -2147483644) { break L5; }
      if (((1L << (l5 = (l2 & 0xffffffffL) << 1L)) & 340L) == 0L) { break L4; }
      l8 = b[((int) (l5 + 98010L)) - 58912] & 0xff;
      break L2;
     }
     l8 = 1;
     if (l2 == 5) { break L2; }
    }
    l2 = 8;
    break L1;
   }
   throw State.trap();
  }
  l5 = l1;
  l0 = l6 = l0 + ((l0 == 0L) ? 4096L : 0L);
  L6: {
   L7: {
    L8: {
     if (l1 + Long.MIN_VALUE < -9223372036854775804L) { break L8; }
     l0 = l6;
     l5 = l1;
     L9: while (true) {
      if (((Words.get32(b, ((int) l0) - 58912) + 16776990) & 12632312) != 8421376) { break L7; }
      l0 = l0 + 3L;
      if ((l5 = l5 + -3L) + Long.MIN_VALUE > -9223372036854775805L) { continue L9; }
      break L9;
     }
    }
    if (l5 + Long.MIN_VALUE > -9223372036854775805L) { break L7; }
    L10: {
     switch ((int) l5) {
     case 1: case 2: break L7;
     case 3: break L10;
     default: break L6;
     }
    }
    if (((((Words.get16(b, ((int) l0) - 58912) & 0xffff) | ((b[((int) (l0 + 2L)) - 58912] & 0xff) << 16)) + 16776990) & 12632312) == 8421376) { break L6; }
   }
   if (Core1.f6(m, l6, l1) != 0) { break L6; }
   l2 = 5;
   break L1;
  }
  Core3.f80(m, l4 + 16L, l6, l1, l8);
  Words.put64(b, ((int) l3) - 58912, 0L);
  Words.put64(b, ((int) l3) - 58904, 0L);
  Words.put64(b, ((int) l3) - 58896, 0L);
  Words.put64(b, ((int) l3) - 58888, 0L);
  Words.put64(b, ((int) l3) - 58880, 0L);
  Words.put64(b, ((int) l3) - 58872, 0L);
  Words.put64(b, ((int) l3) - 58864, 0L);
  l5 = Words.get64(b, ((int) l4) - 58880);
  L11: {
   if ((b[((int) l4) - 58896] & 0xff) != 0) { break L11; }
   l6 = Words.get64(b, ((int) l4) - 58856);
   l1 = Words.get64(b, ((int) l4) - 58864);
   l0 = Words.get64(b, ((int) l4) - 58872);
   Words.put32(b, ((int) l3) - 58880, b[((int) l4) - 58848] & 0xff);
   Words.put64(b, ((int) l3) - 58896, l1);
   Words.put64(b, ((int) (l1 = l3 + 36L)) - 58912, 0L);
   Words.put64(b, ((int) l1) - 58904, 0L);
   l2 = 0;
   Words.put32(b, ((int) l1) - 58896, 0);
   Words.put64(b, ((int) l3) - 58888, l6);
   final int t12 = (int) l3;
   final long t13 = 0L - l5;
   final long t14 = l5;
   final int t15 = l8 = (l0 < 0L) ? 1 : 0;
   final long t16 = 0L - (l1 = t15 != 0 ? t13 : t14);
   final long t17 = l1;
   final int t18 = l8;
   Words.put64(b, t12 - 58912, t18 != 0 ? t16 : t17);
   final int t19 = (int) l3;
   final long t20 = 0L - (l0 + ((l5 != 0L) ? 1L : 0L));
   final long t21 = l0;
   final int t22 = l8;
   final long t23 = 0L - ((l0 = t22 != 0 ? t20 : t21) + ((l1 != 0L) ? 1L : 0L));
   final long t24 = l0;
   final int t25 = l8;
   Words.put64(b, t19 - 58904, t25 != 0 ? t23 : t24);
   break L1;
  }
  l2 = 1;
  L26: {
   L27: {
    L28: {
     switch (b[((int) l4) - 58888] & 0xff) {
     case 1: break L28;
     case 2: break L27;
     case 3: break L26;
     default: break L1;
     }
    }
    Words.put64(b, ((int) l3) - 58872, l5);
    l0 = 0L;
    L29: {
     if (l5 + Long.MIN_VALUE < -9223372036854775792L) { break L29; }
     Core1.f25(m, l4, l6, l1, l5);
     l5 = Words.get64(b, ((int) l4) - 58904);
     l0 = Words.get64(b, ((int) l4) - 58912);
    }
    L30: {
     if (l5 + Long.MIN_VALUE < -9223372036854775805L) { break L30; }
     L31: while (true) {
      if ((l1 - l0) + Long.MIN_VALUE < -9223372036854775800L) { break L30; }
      L32: {
       L33: {
        if (((l7 = Words.get64(b, ((int) (l6 + l0)) - 58912)) & 67553998437089520L) != 63050398541283552L) { break L33; }
        l5 = l5 + -3L;
        l0 = l0 + 9L;
        break L32;
       }
       if (l5 + Long.MIN_VALUE < -9223372036854775800L) { break L30; }
       if ((l7 & -9187201950435737472L) != 0L) { break L30; }
       l5 = l5 + -8L;
       l0 = l0 + 8L;
      }
      if (l5 + Long.MIN_VALUE > -9223372036854775806L) { continue L31; }
      break L31;
     }
    }
    L34: {
     if (l5 == 0L) { break L34; }
     if (l1 + Long.MIN_VALUE <= l0 + Long.MIN_VALUE) { break L34; }
     l5 = l5 + -1L;
     L35: while (true) {
      l0 = Words.get64(b, ((int) (((((b[((int) (l6 + l0)) - 58912] & 0xff) >>> 1) & 0xffffffffL) & 120L) + 66680L)) - 58912) + l0;
      if (l5 == 0L) { break L34; }
      l5 = l5 + -1L;
      if (l1 + Long.MIN_VALUE > l0 + Long.MIN_VALUE) { continue L35; }
      break L35;
     }
    }
    Words.put64(b, ((int) l3) - 58864, l0);
    l2 = 2;
    break L1;
   }
   l2 = 3;
   break L1;
  }
  l2 = 4;
 }
 m.g0 = l4 + 80L;
 return l2;
}
}
