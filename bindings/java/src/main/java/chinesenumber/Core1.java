// The proved module for WebAssembly as Java; made by bindings/java/core.py.
package chinesenumber;

final class Core1 {
static int f0(State m) {
 int l0 = 0;
 l0 = m.g1;
 m.g1 = 1;
 return (l0 != 0) ? 1 : 0;
}

static void f1(State m) {
 m.g1 = 0;
}

static void f2(State m) {
 throw State.trap();
}

static void f3(State m, long l0, long l1, long l2, long l3, long l4) {
 final byte[] b = m.bytes;
 long l5 = 0;
 long l6 = 0;
 Words.put64(b, ((int) l0) - 58904, (((((l5 = l3 >>> 32L) * (l6 = l1 >>> 32L)) + (l2 * l3)) + (l4 * l1)) + ((l3 = ((l2 = (l3 = l3 & 4294967295L) * (l1 = l1 & 4294967295L)) >>> 32L) + (l3 * l6)) >>> 32L)) + ((l1 = (l3 & 4294967295L) + (l5 * l1)) >>> 32L));
 Words.put64(b, ((int) l0) - 58912, (l1 << 32L) | (l2 & 4294967295L));
}

static void f4(State m, long l0, long l1, long l2, int l3) {
 final byte[] b = m.bytes;
 long l4 = 0;
 L1: {
  L2: {
   if ((l3 & 64) == 0) { break L2; }
   l2 = l1 << (l3 & 0xffffffffL);
   l1 = 0L;
   break L1;
  }
  l2 = ((l1 >>> 1L) >>> (((l3 & 63) ^ 63) & 0xffffffffL)) | (l2 << (l4 = l3 & 0xffffffffL));
  l1 = l1 << l4;
 }
 Words.put64(b, ((int) l0) - 58904, l2);
 Words.put64(b, ((int) l0) - 58912, l1);
}

static void f5(State m, long l0, long l1, long l2, int l3) {
 final byte[] b = m.bytes;
 long l4 = 0;
 L1: {
  L2: {
   if ((l3 & 64) == 0) { break L2; }
   l1 = l2 >>> (l3 & 0xffffffffL);
   l2 = 0L;
   break L1;
  }
  l1 = ((l2 << 1L) << (((l3 & 63) ^ 63) & 0xffffffffL)) | (l1 >>> (l4 = l3 & 0xffffffffL));
  l2 = l2 >>> l4;
 }
 Words.put64(b, ((int) l0) - 58904, l2);
 Words.put64(b, ((int) l0) - 58912, l1);
}

static int f6(State m, long l0, long l1) {
 final byte[] b = m.bytes;
 int l2 = 0;
 int l3 = 0;
 long l4 = 0;
 long l5 = 0;
 long l6 = 0;
 long l7 = 0;
 L1: {
  if (m.g0 < 16L) { break L1; }
  L2: {
   L3: {
    if (l1 == 0L) { break L3; }
    L4: while (true) {
     L5: {
      L6: {
       if (l1 + Long.MIN_VALUE < -9223372036854775804L) { break L6; }
       l2 = Words.get32(b, ((int) l0) - 58912);
       break L5;
      }
      L7: {
       L8: {
        if ((l4 = l1 + -1L) + Long.MIN_VALUE > -9223372036854775806L) { break L8; }
        L9: {
         switch ((int) l4) {
         case 1: break L8;
         case 2: break L7;
         default: break L9;
         }
        }
        l2 = b[((int) l0) - 58912] & 0xff;
        break L5;
       }
       l2 = Words.get16(b, ((int) l0) - 58912) & 0xffff;
       break L5;
      }
      l2 = (Words.get16(b, ((int) l0) - 58912) & 0xffff) | ((b[((int) (l0 + 2L)) - 58912] & 0xff) << 16);
     }
     l4 = 3L;
     L10: {
      if (((l2 + 16776990) & 12632312) == 8421376) { break L10; }
      L11: {
       L12: {
        L13: {
         if ((l2 & -2139062144) == 0) { break L13; }
         if ((l2 & 128) != 0) { break L12; }
         final long t14 = ((l2 & 8388608) != 0) ? 2L : 3L;
         final int t15 = l2 & 32768;
         l5 = t15 != 0 ? 1L : t14;
         break L11;
        }
        l5 = 4L;
        if (l1 + Long.MIN_VALUE < -9223372036854775800L) { break L11; }
        if ((Words.get64(b, ((int) l0) - 58912) & -9187201950435737472L) != 0L) { break L11; }
        L16: {
         if (l1 + Long.MIN_VALUE >= -9223372036854775784L) { break L16; }
         l4 = 8L;
         break L10;
        }
        l6 = l1 + -16L;
        l4 = 8L;
        L17: {
         L18: while (true) {
          if (l6 + Long.MIN_VALUE < -9223372036854775800L) { break L17; }
          if (((Words.get64(b, ((int) ((l7 = l0 + l4) + 8L)) - 58912) | Words.get64(b, ((int) l7) - 58912)) & -9187201950435737472L) != 0L) { break L17; }
          l4 = l4 + 16L;
          l7 = l6 + -8L;
          l6 = l6 + -16L;
          if (l7 + Long.MIN_VALUE > -9223372036854775793L) { continue L18; }
          break L18;
         }
        }
        if (l4 == 0L) { break L11; }
        break L10;
       }
       L19: {
        if ((l2 & 224) == 224) { break L19; }
        l3 = 0;
        if ((l2 & 49376) != 32960) { break L2; }
        if ((l2 & 222) + Integer.MIN_VALUE <= -2147483455) { break L2; }
        l4 = 2L;
        break L10;
       }
       L20: {
        if ((l2 & 12632304) != 8421600) { break L20; }
        if ((l3 = l2 & 8431) == 8429) { break L20; }
        if (l3 != 224) { break L10; }
       }
       l3 = 0;
       if ((l2 & -1061109760) != -2139062272) { break L2; }
       if (((((l2 >>> 8) & 240) + ((l2 << 6) & 16320)) + -15504) + Integer.MIN_VALUE >= -2147483392) { break L2; }
       l4 = 4L;
       break L10;
      }
      l4 = (l1 + Long.MIN_VALUE < l5 + Long.MIN_VALUE) ? l1 : l5;
     }
     l0 = l0 + l4;
     if ((l1 = l1 - l4) != 0L) { continue L4; }
     break L4;
    }
   }
   l3 = 1;
  }
  final int t21 = l3;
  return t21;
 }
 throw State.trap();
}

static void f7(State m, long l0, int l1, long l2, long l3) {
 final byte[] b = m.bytes;
 long l4 = 0;
 long l5 = 0;
 m.g0 = l4 = m.g0 - 752L;
 L1: {
  if ((l4 = l4) < 16L) { break L1; }
  L2: {
   L3: {
    L4: {
     L5: {
      L6: {
       L7: {
        L8: {
         switch ((int) ((l1 & 0xffffffffL) & 255L)) {
         case 1: break L7;
         case 2: break L6;
         case 3: break L5;
         case 4: break L4;
         case 5: break L3;
         default: break L8;
         }
        }
        Words.put32(b, ((int) l4) - 58368, 0);
        Words.put32(b, ((int) l4) - 58365, 0);
        l5 = 0L;
        Words.put64(b, ((int) l4) - 58664, 0L);
        Words.put64(b, ((int) l4) - 58656, 0L);
        Words.put64(b, ((int) l4) - 58648, 0L);
        Words.put64(b, ((int) l4) - 58640, 0L);
        Words.put64(b, ((int) l4) - 58632, 0L);
        Words.put64(b, ((int) l4) - 58624, 0L);
        Words.put64(b, ((int) l4) - 58616, 0L);
        Words.put64(b, ((int) l4) - 58704, 0L);
        m.fill((int) (l4 + 344L), 0, (int) 200L);
        Words.put64(b, ((int) l4) - 58696, 0L);
        Words.put64(b, ((int) l4) - 58600, 0L);
        Words.put64(b, ((int) l4) - 58688, 0L);
        Words.put64(b, ((int) l4) - 58680, 0L);
        f8(m, l4 + 248L, l4 + 208L, l2, l3, -1L);
        b[((int) l4) - 58600] = (byte) (l1 = b[((int) l4) - 58664] & 0xff);
        Words.put16(b, ((int) l4) - 58599, (short) (Words.get16(b, ((int) l4) - 58663) & 0xffff));
        Words.put64(b, ((int) l4) - 58592, Words.get64(b, ((int) l4) - 58656));
        Words.put64(b, ((int) l4) - 58584, Words.get64(b, ((int) l4) - 58648));
        Words.put64(b, ((int) l4) - 58576, Words.get64(b, ((int) l4) - 58640));
        l3 = Words.get64(b, ((int) l4) - 58632);
        f9(m, l4 + 344L, l4 + 312L);
        m.copy((int) (l4 + 551L), (int) (l4 + 344L), (int) 200L);
        m.copy((int) (l4 + 1L), (int) (l4 + 544L), (int) 207L);
        l1 = 655360 >>> l1;
        break L2;
       }
       Words.put32(b, ((int) l4) - 58368, 0);
       Words.put32(b, ((int) l4) - 58365, 0);
       l5 = 0L;
       Words.put64(b, ((int) l4) - 58664, 0L);
       Words.put64(b, ((int) l4) - 58656, 0L);
       Words.put64(b, ((int) l4) - 58648, 0L);
       Words.put64(b, ((int) l4) - 58640, 0L);
       Words.put64(b, ((int) l4) - 58632, 0L);
       Words.put64(b, ((int) l4) - 58624, 0L);
       Words.put64(b, ((int) l4) - 58616, 0L);
       Words.put64(b, ((int) l4) - 58608, 0L);
       m.fill((int) (l4 + 344L), 0, (int) 200L);
       Words.put64(b, ((int) l4) - 58672, 0L);
       Words.put64(b, ((int) l4) - 58680, 0L);
       Words.put64(b, ((int) l4) - 58688, 0L);
       Words.put64(b, ((int) l4) - 58696, 0L);
       Words.put64(b, ((int) l4) - 58704, 0L);
       f10(m, l4 + 248L, l4 + 208L, l2, l3, -1L);
       l3 = Words.get64(b, ((int) l4) - 58624);
       l1 = b[((int) l4) - 58656] & 0xff;
       f11(m, l4 + 344L, l4 + 248L);
       m.copy((int) (l4 + 551L), (int) (l4 + 344L), (int) 200L);
       m.copy((int) (l4 + 1L), (int) (l4 + 544L), (int) 207L);
       l1 = 655360 >>> l1;
       break L2;
      }
      Words.put32(b, ((int) l4) - 58368, 0);
      Words.put32(b, ((int) l4) - 58365, 0);
      Words.put64(b, ((int) l4) - 58664, 0L);
      Words.put64(b, ((int) l4) - 58656, 0L);
      Words.put64(b, ((int) l4) - 58648, 0L);
      Words.put64(b, ((int) l4) - 58640, 0L);
      Words.put64(b, ((int) l4) - 58632, 0L);
      Words.put64(b, ((int) l4) - 58624, 0L);
      Words.put64(b, ((int) l4) - 58616, 0L);
      Words.put64(b, ((int) l4) - 58608, 0L);
      m.fill((int) (l4 + 344L), 0, (int) 200L);
      Words.put32(b, ((int) l4) - 58701, 0);
      b[((int) l4) - 58702] = (byte) 1;
      Words.put16(b, ((int) l4) - 58704, (short) 257);
      Words.put64(b, ((int) l4) - 58695, 0L);
      Words.put16(b, ((int) l4) - 58697, (short) 768);
      Words.put64(b, ((int) l4) - 58687, 0L);
      Words.put64(b, ((int) l4) - 58679, 0L);
      Words.put64(b, ((int) l4) - 58672, 0L);
      f12(m, l4 + 248L, l4 + 208L, l2, l3, -1L);
      l3 = Words.get64(b, ((int) l4) - 58624);
      l1 = b[((int) l4) - 58656] & 0xff;
      f13(m, l4 + 344L, l4 + 248L);
      m.copy((int) (l4 + 551L), (int) (l4 + 344L), (int) 200L);
      m.copy((int) (l4 + 1L), (int) (l4 + 544L), (int) 207L);
      l1 = 655360 >>> l1;
      l5 = 1L;
      break L2;
     }
     Words.put32(b, ((int) l4) - 58368, 0);
     Words.put32(b, ((int) l4) - 58365, 0);
     Words.put64(b, ((int) l4) - 58664, 0L);
     Words.put64(b, ((int) l4) - 58656, 0L);
     Words.put64(b, ((int) l4) - 58648, 0L);
     Words.put64(b, ((int) l4) - 58640, 0L);
     Words.put64(b, ((int) l4) - 58632, 0L);
     Words.put64(b, ((int) l4) - 58624, 0L);
     Words.put64(b, ((int) l4) - 58616, 0L);
     Words.put64(b, ((int) l4) - 58608, 0L);
     m.fill((int) (l4 + 344L), 0, (int) 200L);
     Words.put32(b, ((int) l4) - 58701, 0);
     b[((int) l4) - 58702] = (byte) 1;
     Words.put16(b, ((int) l4) - 58704, (short) 1);
     Words.put64(b, ((int) l4) - 58695, 0L);
     Words.put16(b, ((int) l4) - 58697, (short) 768);
     Words.put64(b, ((int) l4) - 58687, 0L);
     Words.put64(b, ((int) l4) - 58679, 0L);
     Words.put64(b, ((int) l4) - 58672, 0L);
     f14(m, l4 + 248L, l4 + 208L, l2, l3, -1L);
     l3 = Words.get64(b, ((int) l4) - 58624);
     l1 = b[((int) l4) - 58656] & 0xff;
     f15(m, l4 + 344L, l4 + 248L);
     m.copy((int) (l4 + 551L), (int) (l4 + 344L), (int) 200L);
     m.copy((int) (l4 + 1L), (int) (l4 + 544L), (int) 207L);
     l1 = 655360 >>> l1;
     l5 = 1L;
     break L2;
    }
    Words.put32(b, ((int) l4) - 58368, 0);
    Words.put32(b, ((int) l4) - 58365, 0);
    l5 = 0L;
    Words.put64(b, ((int) l4) - 58664, 0L);
    Words.put64(b, ((int) l4) - 58656, 0L);
    Words.put64(b, ((int) l4) - 58648, 0L);
    Words.put64(b, ((int) l4) - 58640, 0L);
    Words.put64(b, ((int) l4) - 58632, 0L);
    Words.put16(b, ((int) l4) - 58696, (short) 0);
    m.fill((int) (l4 + 344L), 0, (int) 200L);
    Words.put64(b, ((int) l4) - 58704, 0L);
    Words.put16(b, ((int) l4) - 58592, (short) 0);
    b[((int) l4) - 58696] = (byte) 0;
    f16(m, l4 + 248L, l4 + 208L, l2, l3, -1L);
    Words.put32(b, ((int) l4) - 58598, Words.get32(b, ((int) l4) - 58662));
    Words.put16(b, ((int) l4) - 58600, (short) (l1 = b[((int) l4) - 58664] & 0xff));
    b[((int) l4) - 58594] = (byte) (b[((int) l4) - 58658] & 0xff);
    Words.put16(b, ((int) l4) - 58593, (short) (Words.get16(b, ((int) l4) - 58657) & 0xffff));
    l3 = Words.get64(b, ((int) l4) - 58648);
    f17(m, l4 + 344L, l4 + 312L);
    m.copy((int) (l4 + 551L), (int) (l4 + 344L), (int) 200L);
    m.copy((int) (l4 + 1L), (int) (l4 + 544L), (int) 207L);
    l1 = (l1 == 3) ? 1 : 0;
    break L2;
   }
   Words.put32(b, ((int) l4) - 58368, 0);
   Words.put32(b, ((int) l4) - 58365, 0);
   l5 = 0L;
   Words.put64(b, ((int) l4) - 58664, 0L);
   Words.put64(b, ((int) l4) - 58656, 0L);
   Words.put64(b, ((int) l4) - 58648, 0L);
   Words.put64(b, ((int) l4) - 58640, 0L);
   Words.put64(b, ((int) l4) - 58632, 0L);
   Words.put64(b, ((int) l4) - 58624, 0L);
   Words.put64(b, ((int) l4) - 58616, 0L);
   Words.put64(b, ((int) l4) - 58704, 0L);
   Words.put64(b, ((int) l4) - 58696, 0L);
   m.fill((int) (l4 + 344L), 0, (int) 200L);
   Words.put64(b, ((int) l4) - 58592, 0L);
   Words.put64(b, ((int) l4) - 58600, 0L);
   Words.put64(b, ((int) l4) - 58680, 0L);
   Words.put64(b, ((int) l4) - 58688, 1L);
   f18(m, l4 + 248L, l4 + 208L, l2, l3, -1L);
   Words.put64(b, ((int) l4) - 58576, Words.get64(b, ((int) l4) - 58640));
   Words.put64(b, ((int) l4) - 58584, b[((int) l4) - 58648] & 0xffL);
   b[((int) l4) - 58592] = (byte) (l1 = b[((int) l4) - 58656] & 0xff);
   b[((int) l4) - 58600] = (byte) (b[((int) l4) - 58664] & 0xff);
   l3 = Words.get64(b, ((int) l4) - 58632);
   f19(m, l4 + 344L, l4 + 312L);
   m.copy((int) (l4 + 551L), (int) (l4 + 344L), (int) 200L);
   m.copy((int) (l4 + 1L), (int) (l4 + 544L), (int) 207L);
   l1 = 6716 >>> l1;
  }
  Words.put64(b, ((int) l0) - 58912, l3);
  b[((int) l0) - 58904] = (byte) (l1 & 1);
  m.copy((int) (l0 + 9L), (int) (l4 + 1L), (int) 207L);
  Words.put64(b, ((int) l0) - 58696, l5);
  m.g0 = l4 + 752L;
  return;
 }
 throw State.trap();
}

static void f8(State m, long l0, long l1, long l2, long l3, long l4) {
 final byte[] b = m.bytes;
 int l5 = 0;
 int l6 = 0;
 int l7 = 0;
 int l8 = 0;
 int l9 = 0;
 int l10 = 0;
 int l11 = 0;
 int l12 = 0;
 int l13 = 0;
 int l14 = 0;
 long l15 = 0;
 long l16 = 0;
 long l17 = 0;
 long l18 = 0;
 long l19 = 0;
 long l20 = 0;
 L1: {
  if (m.g0 < 16L) { break L1; }
  l5 = b[((int) (l1 + 1L)) - 58912] & 0xff;
  l6 = b[((int) (l1 + 2L)) - 58912] & 0xff;
  l15 = Words.get64(b, ((int) (l1 + 8L)) - 58912);
  l16 = Words.get64(b, ((int) (l1 + 16L)) - 58912);
  l17 = Words.get64(b, ((int) (l1 + 24L)) - 58912);
  l7 = b[((int) l1) - 58912] & 0xff;
  l18 = 0L;
  L2: {
   if (l4 == 0L) { break L2; }
   if (l3 == 0L) { break L2; }
   l18 = 0L;
   L3: while (true) {
    l9 = (l8 = (int) b[((int) l2) - 58912]) & 255;
    l19 = 1L;
    L4: {
     if (l8 > -1) { break L4; }
     l10 = (b[((int) l2) - 58911] & 0xff) & 63;
     L5: {
      if (l8 + Integer.MIN_VALUE > 2147483615) { break L5; }
      l9 = ((l9 << 6) & 1984) | l10;
      l19 = 2L;
      break L4;
     }
     l11 = (b[((int) l2) - 58910] & 0xff) & 63;
     L6: {
      if (l8 + Integer.MIN_VALUE > 2147483631) { break L6; }
      l9 = ((l10 << 6) | ((l9 << 12) & 61440)) | l11;
      l19 = 3L;
      break L4;
     }
     l9 = ((l11 << 6) | ((l10 << 12) | ((l9 << 18) & 1835008))) | ((b[((int) l2) - 58909] & 0xff) & 63);
     l19 = 4L;
    }
    if (Words.get32(b, State.far((int) (l1 = (((l9 * 3227) >>> 7) & 0xffffffffL) & 504L), 65536)) != l9) { break L2; }
    if (((b[((int) (l1 + 65540L)) - 58912] & 0xff) & 255) != 1) { break L2; }
    l20 = b[((int) (l1 + 65542L)) - 58912] & 0xffL;
    l9 = b[((int) (l1 + 65541L)) - 58912] & 0xff;
    L7: {
     L8: {
      L9: {
       L10: {
        L11: {
         L12: {
          L13: {
           L14: {
            L15: {
             L16: {
              L17: {
               L18: {
                L19: {
                 L20: {
                  L21: {
                   L22: {
                    L23: {
                     L24: {
                      L25: {
                       L26: {
                        L27: {
                         L28: {
                          L29: {
                           L30: {
                            L31: {
                             L32: {
                              L33: {
                               L34: {
                                L35: {
                                 L36: {
                                  L37: {
                                   L38: {
                                    L39: {
                                     L40: {
                                      L41: {
                                       L42: {
                                        L43: {
                                         L44: {
                                          L45: {
                                           L46: {
                                            L47: {
                                             L48: {
                                              L49: {
                                               switch ((int) ((l7 & 0xffffffffL) & 255L)) {
                                               case 1: break L40;
                                               case 2: break L39;
                                               case 3: break L38;
                                               case 4: break L37;
                                               case 5: break L49;
                                               case 6: break L48;
                                               case 7: break L47;
                                               case 8: break L46;
                                               case 9: break L45;
                                               case 10: break L44;
                                               case 11: break L43;
                                               case 12: break L42;
                                               case 13: break L36;
                                               case 14: break L34;
                                               case 15: break L32;
                                               case 16: break L33;
                                               case 17: break L35;
                                               case 18: break L30;
                                               case 19: break L2;
                                               default: break L41;
                                               }
                                              }
                                              L50: {
                                               if (((1 << l9) & 261375) != 0) { break L50; }
                                               if (l9 != 8) { break L29; }
                                               break L8;
                                              }
                                              L51: {
                                               if ((l9 + -5) + Integer.MIN_VALUE < -2147483635) { break L51; }
                                               l10 = 0;
                                               switch (l9) {
                                               case 2: break L10;
                                               case 3: break L9;
                                               case 4: break L25;
                                               default: break L51;
                                               }
                                              }
                                              l7 = 5;
                                              l10 = 0;
                                              l8 = 6;
                                              switch (l9) {
                                              case 5: break L22;
                                              case 6: break L21;
                                              case 7: break L19;
                                              default: break L2;
                                              }
                                             }
                                             l7 = 6;
                                             L52: {
                                              if ((l9 + -6) + Integer.MIN_VALUE < -2147483636) { break L52; }
                                              l12 = 3;
                                              l13 = 10;
                                              l14 = l9;
                                              L53: {
                                               switch (l9) {
                                               case 1: break L27;
                                               case 2: case 3: case 4: break L52;
                                               case 5: break L2;
                                               default: break L53;
                                               }
                                              }
                                              l10 = 1;
                                              l11 = (l5 & 1) | 2;
                                              l8 = 9;
                                              break L7;
                                             }
                                             l10 = 1;
                                             if (l9 == 6) { break L21; }
                                             if (l9 == 7) { break L19; }
                                             break L2;
                                            }
                                            l7 = 7;
                                            L54: {
                                             if ((l9 + -6) + Integer.MIN_VALUE < -2147483636) { break L54; }
                                             l12 = 3;
                                             l14 = 4;
                                             l13 = 10;
                                             L55: {
                                              switch (l9) {
                                              case 1: break L27;
                                              case 2: case 3: case 4: break L54;
                                              case 5: break L2;
                                              default: break L55;
                                              }
                                             }
                                             l11 = 3;
                                             l10 = (l5 & 1) ^ 3;
                                             l8 = 9;
                                             break L7;
                                            }
                                            l10 = 1;
                                            l8 = 8;
                                            if (l9 == 5) { break L22; }
                                            if (l9 == 7) { break L19; }
                                            break L2;
                                           }
                                           l10 = 1;
                                           l7 = 8;
                                           l12 = 3;
                                           l14 = 5;
                                           l13 = 10;
                                           L56: {
                                            switch (l9) {
                                            case 1: break L27;
                                            case 2: case 3: case 4: case 5: case 6: case 8: case 9: case 10: case 11: case 12: case 13: case 14: case 15: case 16: case 17: break L2;
                                            case 7: break L19;
                                            default: break L56;
                                            }
                                           }
                                           l11 = (l5 & 1) | 2;
                                           l10 = 5;
                                           l8 = 9;
                                           break L7;
                                          }
                                          if (l9 == 1) { break L28; }
                                          l7 = 9;
                                          break L2;
                                         }
                                         L57: {
                                          L58: {
                                           L59: {
                                            L60: {
                                             switch ((int) ((l6 & 0xffffffffL) & 255L)) {
                                             case 1: break L58;
                                             case 2: break L59;
                                             case 3: break L60;
                                             default: break L57;
                                             }
                                            }
                                            L61: {
                                             if (l9 != 4) { break L61; }
                                             l10 = l5;
                                             break L25;
                                            }
                                            l6 = 3;
                                            l7 = 10;
                                            break L2;
                                           }
                                           L62: {
                                            if (l9 != 3) { break L62; }
                                            l10 = l5;
                                            break L9;
                                           }
                                           l6 = 2;
                                           l7 = 10;
                                           break L2;
                                          }
                                          L63: {
                                           if (l9 != 2) { break L63; }
                                           l10 = l5;
                                           break L10;
                                          }
                                          l6 = 1;
                                          l7 = 10;
                                          break L2;
                                         }
                                         L64: {
                                          L65: {
                                           L66: {
                                            L67: {
                                             L68: {
                                              switch ((int) ((l5 & 0xffffffffL) & 255L)) {
                                              case 1: break L65;
                                              case 2: case 3: break L67;
                                              case 4: break L66;
                                              case 5: break L64;
                                              default: break L68;
                                              }
                                             }
                                             l7 = 10;
                                             l10 = 0;
                                             l8 = 6;
                                             l5 = 0;
                                             l6 = 0;
                                             switch (l9) {
                                             case 5: break L22;
                                             case 6: break L21;
                                             case 7: break L19;
                                             default: break L2;
                                             }
                                            }
                                            l7 = 10;
                                            l10 = 0;
                                            l8 = 8;
                                            if (l9 == 5) { break L22; }
                                            if (l9 == 7) { break L19; }
                                            l6 = 0;
                                            break L2;
                                           }
                                           l10 = 0;
                                           if (l9 == 5) { break L23; }
                                           l5 = 4;
                                           break L11;
                                          }
                                          l5 = 1;
                                          l7 = 10;
                                          l10 = 0;
                                          if (l9 == 6) { break L21; }
                                          if (l9 == 7) { break L19; }
                                          l6 = 0;
                                          break L2;
                                         }
                                         l10 = 0;
                                         if (l9 == 7) { break L19; }
                                         l5 = 5;
                                         break L11;
                                        }
                                        L69: {
                                         L70: {
                                          L71: {
                                           L72: {
                                            switch ((int) ((l6 & 0xffffffffL) & 255L)) {
                                            case 1: break L70;
                                            case 2: break L71;
                                            case 3: break L72;
                                            default: break L69;
                                            }
                                           }
                                           L73: {
                                            if ((l9 + -5) + Integer.MIN_VALUE < -2147483635) { break L73; }
                                            l10 = l5;
                                            switch (l9) {
                                            case 2: break L10;
                                            case 3: break L9;
                                            case 4: break L26;
                                            default: break L73;
                                            }
                                           }
                                           L74: {
                                            L75: {
                                             L76: {
                                              L77: {
                                               L78: {
                                                switch ((int) ((l5 & 0xffffffffL) & 255L)) {
                                                case 1: break L75;
                                                case 2: case 3: break L77;
                                                case 4: break L76;
                                                case 5: break L74;
                                                default: break L78;
                                                }
                                               }
                                               l6 = 3;
                                               l7 = 11;
                                               l10 = 0;
                                               l8 = 6;
                                               l5 = 0;
                                               switch (l9) {
                                               case 5: break L22;
                                               case 6: break L21;
                                               case 7: break L19;
                                               default: break L2;
                                               }
                                              }
                                              l6 = 3;
                                              l7 = 11;
                                              l10 = 0;
                                              l8 = 8;
                                              if (l9 == 5) { break L22; }
                                              if (l9 == 7) { break L19; }
                                              break L2;
                                             }
                                             if (l9 == 5) { break L24; }
                                             l6 = 3;
                                             break L12;
                                            }
                                            l6 = 3;
                                            l5 = 1;
                                            l7 = 11;
                                            l10 = 0;
                                            if (l9 == 6) { break L21; }
                                            if (l9 == 7) { break L19; }
                                            break L2;
                                           }
                                           if (l9 == 7) { break L20; }
                                           l6 = 3;
                                           break L13;
                                          }
                                          L79: {
                                           if ((l9 + -4) + Integer.MIN_VALUE < -2147483634) { break L79; }
                                           l10 = l5;
                                           switch (l9) {
                                           case 2: break L10;
                                           case 3: break L9;
                                           default: break L79;
                                           }
                                          }
                                          L80: {
                                           L81: {
                                            L82: {
                                             L83: {
                                              L84: {
                                               switch ((int) ((l5 & 0xffffffffL) & 255L)) {
                                               case 1: break L81;
                                               case 2: case 3: break L83;
                                               case 4: break L82;
                                               case 5: break L80;
                                               default: break L84;
                                               }
                                              }
                                              l6 = 2;
                                              l7 = 11;
                                              l10 = 0;
                                              l8 = 6;
                                              l5 = 0;
                                              switch (l9) {
                                              case 5: break L22;
                                              case 6: break L21;
                                              case 7: break L19;
                                              default: break L2;
                                              }
                                             }
                                             l6 = 2;
                                             l7 = 11;
                                             l10 = 0;
                                             l8 = 8;
                                             if (l9 == 5) { break L22; }
                                             if (l9 == 7) { break L19; }
                                             break L2;
                                            }
                                            if (l9 == 5) { break L24; }
                                            l6 = 2;
                                            break L12;
                                           }
                                           l6 = 2;
                                           l5 = 1;
                                           l7 = 11;
                                           l10 = 0;
                                           if (l9 == 6) { break L21; }
                                           if (l9 == 7) { break L19; }
                                           break L2;
                                          }
                                          if (l9 == 7) { break L20; }
                                          l6 = 2;
                                          break L13;
                                         }
                                         l6 = 1;
                                         l7 = 11;
                                         L85: {
                                          if ((l9 + -5) + Integer.MIN_VALUE < -2147483635) { break L85; }
                                          l10 = l5;
                                          switch (l9) {
                                          case 2: break L10;
                                          case 3: case 4: break L2;
                                          default: break L85;
                                          }
                                         }
                                         L86: {
                                          L87: {
                                           L88: {
                                            L89: {
                                             L90: {
                                              switch ((int) ((l5 & 0xffffffffL) & 255L)) {
                                              case 1: break L87;
                                              case 2: case 3: break L89;
                                              case 4: break L88;
                                              case 5: break L86;
                                              default: break L90;
                                              }
                                             }
                                             l10 = 0;
                                             l8 = 6;
                                             l5 = 0;
                                             switch (l9) {
                                             case 5: break L22;
                                             case 6: break L21;
                                             case 7: break L19;
                                             default: break L2;
                                             }
                                            }
                                            l10 = 0;
                                            l8 = 8;
                                            if (l9 == 5) { break L22; }
                                            if (l9 == 7) { break L19; }
                                            break L2;
                                           }
                                           if (l9 == 5) { break L24; }
                                           l5 = 4;
                                           break L2;
                                          }
                                          l5 = 1;
                                          l10 = 0;
                                          if (l9 == 6) { break L21; }
                                          if (l9 == 7) { break L19; }
                                          l6 = 1;
                                          break L2;
                                         }
                                         if (l9 == 7) { break L20; }
                                         l5 = 5;
                                         break L2;
                                        }
                                        L91: {
                                         L92: {
                                          L93: {
                                           L94: {
                                            L95: {
                                             switch ((int) ((l5 & 0xffffffffL) & 255L)) {
                                             case 1: break L92;
                                             case 2: case 3: break L94;
                                             case 4: break L93;
                                             case 5: break L91;
                                             default: break L95;
                                             }
                                            }
                                            l7 = 11;
                                            l10 = 0;
                                            l8 = 6;
                                            l5 = 0;
                                            l6 = 0;
                                            switch (l9) {
                                            case 5: break L22;
                                            case 6: break L21;
                                            case 7: break L19;
                                            default: break L2;
                                            }
                                           }
                                           l7 = 11;
                                           l10 = 0;
                                           l8 = 8;
                                           if (l9 == 5) { break L22; }
                                           if (l9 == 7) { break L19; }
                                           l6 = 0;
                                           break L2;
                                          }
                                          l10 = 0;
                                          if (l9 == 5) { break L23; }
                                          l5 = 4;
                                          break L14;
                                         }
                                         l5 = 1;
                                         l7 = 11;
                                         l10 = 0;
                                         if (l9 == 6) { break L21; }
                                         if (l9 == 7) { break L19; }
                                         l6 = 0;
                                         break L2;
                                        }
                                        l10 = 0;
                                        if (l9 == 7) { break L19; }
                                        l5 = 5;
                                        break L14;
                                       }
                                       L96: {
                                        L97: {
                                         L98: {
                                          L99: {
                                           L100: {
                                            L101: {
                                             L102: {
                                              switch ((int) ((l6 & 0xffffffffL) & 255L)) {
                                              case 1: break L100;
                                              case 2: break L101;
                                              case 3: break L102;
                                              default: break L99;
                                              }
                                             }
                                             L103: {
                                              if ((l9 + -2) + Integer.MIN_VALUE < -2147483632) { break L103; }
                                              l11 = 1;
                                              l8 = 9;
                                              l12 = 2;
                                              l13 = 10;
                                              l14 = l5;
                                              l10 = l5;
                                              switch (l9) {
                                              case 1: break L27;
                                              default: break L7;
                                              }
                                             }
                                             L104: {
                                              L105: {
                                               L106: {
                                                L107: {
                                                 L108: {
                                                  switch ((int) ((l5 & 0xffffffffL) & 255L)) {
                                                  case 1: break L105;
                                                  case 2: case 3: break L107;
                                                  case 4: break L106;
                                                  case 5: break L104;
                                                  default: break L108;
                                                  }
                                                 }
                                                 l6 = 3;
                                                 l5 = 0;
                                                 l7 = 12;
                                                 l10 = 1;
                                                 l8 = 6;
                                                 switch (l9 + -2) {
                                                 case 3: break L22;
                                                 case 4: break L21;
                                                 case 5: break L19;
                                                 default: break L2;
                                                 }
                                                }
                                                l6 = 3;
                                                l7 = 12;
                                                l10 = 1;
                                                l8 = 8;
                                                if (l9 == 5) { break L22; }
                                                if (l9 == 7) { break L19; }
                                                break L2;
                                               }
                                               if (l9 == 5) { break L98; }
                                               l6 = 3;
                                               break L15;
                                              }
                                              l6 = 3;
                                              l7 = 12;
                                              l10 = 1;
                                              if (l9 == 6) { break L21; }
                                              if (l9 == 7) { break L19; }
                                              l5 = 1;
                                              break L2;
                                             }
                                             L109: {
                                              if (l9 == 7) { break L109; }
                                              l6 = 3;
                                              break L16;
                                             }
                                             l10 = 1;
                                             break L19;
                                            }
                                            L110: {
                                             if ((l9 + -2) + Integer.MIN_VALUE < -2147483632) { break L110; }
                                             l8 = 9;
                                             l13 = 10;
                                             l14 = l5;
                                             l12 = l9;
                                             l10 = l5;
                                             l11 = l9;
                                             switch (l9) {
                                             case 1: break L27;
                                             default: break L7;
                                             }
                                            }
                                            L111: {
                                             L112: {
                                              L113: {
                                               L114: {
                                                L115: {
                                                 switch ((int) ((l5 & 0xffffffffL) & 255L)) {
                                                 case 1: break L112;
                                                 case 2: case 3: break L114;
                                                 case 4: break L113;
                                                 case 5: break L111;
                                                 default: break L115;
                                                 }
                                                }
                                                l6 = 2;
                                                l5 = 0;
                                                l7 = 12;
                                                l10 = 1;
                                                l8 = 6;
                                                switch (l9 + -2) {
                                                case 3: break L22;
                                                case 4: break L21;
                                                case 5: break L19;
                                                default: break L2;
                                                }
                                               }
                                               l6 = 2;
                                               l7 = 12;
                                               l10 = 1;
                                               l8 = 8;
                                               if (l9 == 5) { break L22; }
                                               if (l9 == 7) { break L19; }
                                               break L2;
                                              }
                                              if (l9 == 5) { break L98; }
                                              l6 = 2;
                                              break L15;
                                             }
                                             l6 = 2;
                                             l7 = 12;
                                             l10 = 1;
                                             if (l9 == 6) { break L21; }
                                             if (l9 == 7) { break L19; }
                                             l5 = 1;
                                             break L2;
                                            }
                                            L116: {
                                             if (l9 == 7) { break L116; }
                                             l6 = 2;
                                             break L16;
                                            }
                                            l10 = 1;
                                            break L19;
                                           }
                                           l7 = 12;
                                           L117: {
                                            if ((l9 + -2) + Integer.MIN_VALUE < -2147483632) { break L117; }
                                            l6 = 1;
                                            l12 = 0;
                                            l13 = 10;
                                            l14 = l5;
                                            switch (l9) {
                                            case 1: break L27;
                                            default: break L2;
                                            }
                                           }
                                           L118: {
                                            L119: {
                                             L120: {
                                              L121: {
                                               L122: {
                                                switch ((int) ((l5 & 0xffffffffL) & 255L)) {
                                                case 1: break L119;
                                                case 2: case 3: break L121;
                                                case 4: break L120;
                                                case 5: break L118;
                                                default: break L122;
                                                }
                                               }
                                               l5 = 0;
                                               l10 = 1;
                                               l8 = 6;
                                               l6 = 1;
                                               switch (l9 + -2) {
                                               case 3: break L22;
                                               case 4: break L21;
                                               case 5: break L19;
                                               default: break L2;
                                               }
                                              }
                                              l10 = 1;
                                              l8 = 8;
                                              if (l9 == 5) { break L22; }
                                              if (l9 == 7) { break L19; }
                                              l6 = 1;
                                              break L2;
                                             }
                                             l10 = 1;
                                             if (l9 == 5) { break L23; }
                                             l5 = 4;
                                             l6 = 1;
                                             break L2;
                                            }
                                            l10 = 1;
                                            if (l9 == 6) { break L21; }
                                            if (l9 == 7) { break L19; }
                                            l5 = 1;
                                            l6 = 1;
                                            break L2;
                                           }
                                           l10 = 1;
                                           if (l9 == 7) { break L19; }
                                           l5 = 5;
                                           l6 = 1;
                                           break L2;
                                          }
                                          L123: {
                                           L124: {
                                            L125: {
                                             switch ((int) ((l5 & 0xffffffffL) & 255L)) {
                                             case 1: break L97;
                                             case 2: case 3: break L124;
                                             case 4: break L123;
                                             case 5: break L96;
                                             default: break L125;
                                             }
                                            }
                                            l5 = 0;
                                            l7 = 12;
                                            l10 = 1;
                                            l8 = 6;
                                            l6 = 0;
                                            switch (l9) {
                                            case 5: break L22;
                                            case 6: break L21;
                                            case 7: break L19;
                                            default: break L2;
                                            }
                                           }
                                           l6 = 0;
                                           l7 = 12;
                                           l10 = 1;
                                           l8 = 8;
                                           if (l9 == 5) { break L22; }
                                           if (l9 == 7) { break L19; }
                                           break L2;
                                          }
                                          if (l9 == 5) { break L98; }
                                          l6 = 0;
                                          break L15;
                                         }
                                         l10 = 1;
                                         break L23;
                                        }
                                        l6 = 0;
                                        l7 = 12;
                                        l10 = 1;
                                        if (l9 == 6) { break L21; }
                                        if (l9 == 7) { break L19; }
                                        l5 = 1;
                                        break L2;
                                       }
                                       L126: {
                                        if (l9 == 7) { break L126; }
                                        l6 = 0;
                                        break L16;
                                       }
                                       l10 = 1;
                                       break L19;
                                      }
                                      l13 = 5;
                                      l14 = 0;
                                      l8 = 1;
                                      l12 = 0;
                                      l10 = 0;
                                      l11 = 0;
                                      l7 = 0;
                                      switch (l9) {
                                      case 1: break L27;
                                      case 2: case 3: case 4: case 5: case 6: case 7: case 8: case 9: case 10: case 12: case 13: case 14: case 15: case 16: case 17: break L2;
                                      case 11: break L7;
                                      default: break L31;
                                      }
                                     }
                                     L127: {
                                      if (l9 == 12) { break L127; }
                                      l7 = 1;
                                      break L2;
                                     }
                                     l10 = 0;
                                     l8 = 2;
                                     l11 = 0;
                                     break L7;
                                    }
                                    L128: {
                                     if (l9 == 13) { break L128; }
                                     l7 = 2;
                                     break L2;
                                    }
                                    l10 = 0;
                                    l8 = 3;
                                    l11 = 0;
                                    break L7;
                                   }
                                   l7 = 3;
                                   l14 = 0;
                                   l13 = 5;
                                   l12 = 0;
                                   switch (l9) {
                                   case 1: break L27;
                                   case 2: case 3: case 4: case 5: case 6: case 7: case 8: case 9: case 10: case 11: case 12: case 13: case 14: case 15: case 16: case 17: break L2;
                                   default: break L31;
                                   }
                                  }
                                  L129: {
                                   if (l9 == 7) { break L129; }
                                   l7 = 4;
                                   break L2;
                                  }
                                  l10 = 1;
                                  break L19;
                                 }
                                 l7 = 13;
                                 l13 = 16;
                                 l14 = 0;
                                 l8 = 19;
                                 l12 = 0;
                                 l10 = 0;
                                 l11 = 0;
                                 L130: {
                                  switch (l9) {
                                  case 1: break L27;
                                  case 2: case 3: case 4: case 5: case 6: case 7: case 8: case 9: case 11: case 12: case 13: case 14: case 15: case 16: case 17: break L2;
                                  case 10: break L7;
                                  default: break L130;
                                  }
                                 }
                                 l10 = l5 & 1;
                                 l8 = 14;
                                 l11 = 0;
                                 break L7;
                                }
                                l13 = 18;
                                l14 = 0;
                                l8 = 19;
                                L131: {
                                 if (l9 != 1) { break L131; }
                                 l12 = 0;
                                 break L27;
                                }
                                if (l9 != 10) { break L17; }
                                l10 = 0;
                                l11 = 0;
                                break L7;
                               }
                               L132: {
                                if (l9 == 1) { break L132; }
                                l7 = 14;
                                break L2;
                               }
                               l14 = l5 & 1;
                               l12 = 0;
                               l13 = 15;
                               break L27;
                              }
                              if (l9 == 8) { break L8; }
                              l7 = 16;
                              break L2;
                             }
                             if ((l5 & 1) == 0) { break L30; }
                             l7 = 15;
                             if (l9 == 8) { break L8; }
                             if (l9 == 9) { break L29; }
                             break L2;
                            }
                            l10 = 0;
                            l8 = 4;
                            l11 = 0;
                            break L7;
                           }
                           if (l9 != 9) { break L2; }
                          }
                          l15 = l17 + l15;
                          l17 = 0L;
                          l10 = 0;
                          l8 = 19;
                          l11 = 0;
                          break L7;
                         }
                         l13 = 11;
                         l14 = l5;
                         l12 = l6;
                        }
                        l8 = l13;
                        l10 = l14;
                        l11 = l12;
                        l17 = l20;
                        break L7;
                       }
                       l10 = ((l5 & 255) == 3) ? 5 : l5;
                      }
                      l16 = (l17 * 1000L) + l16;
                      l17 = 0L;
                      l11 = 3;
                      l8 = 12;
                      break L7;
                     }
                     l10 = 0;
                    }
                    l8 = 8;
                   }
                   l15 = ((l17 + l16) * 10000L) + l15;
                   l16 = 0L;
                   l11 = 0;
                   break L18;
                  }
                  l15 = ((l17 + l15) + l16) * 100000000L;
                  l16 = 0L;
                  l11 = 0;
                  l8 = 7;
                  break L18;
                 }
                 l10 = 0;
                }
                l15 = ((l17 + l15) + l16) * 100L;
                l16 = 0L;
                l11 = 0;
                l8 = 13;
               }
               l17 = 0L;
               break L7;
              }
              l7 = 17;
              break L2;
             }
             l5 = 5;
             l7 = 12;
             break L2;
            }
            l5 = 4;
            l7 = 12;
            break L2;
           }
           l7 = 11;
           l6 = 0;
           break L2;
          }
          l5 = 5;
          l7 = 11;
          break L2;
         }
         l5 = 4;
         l7 = 11;
         break L2;
        }
        l7 = 10;
        l6 = 0;
        break L2;
       }
       l16 = (l17 * 10L) + l16;
       l17 = 0L;
       l11 = 1;
       l8 = 12;
       break L7;
      }
      l16 = (l17 * 100L) + l16;
      l17 = 0L;
      l11 = 2;
      l8 = 12;
      break L7;
     }
     l15 = (l17 * 10L) + l15;
     l17 = 0L;
     l10 = 0;
     l8 = 17;
     l11 = 0;
    }
    l3 = l3 - l19;
    l2 = l2 + l19;
    L133: {
     if ((l18 = l18 + 1L) + Long.MIN_VALUE < l4 + Long.MIN_VALUE) { break L133; }
     l7 = l8;
     l5 = l10;
     l6 = l11;
     break L2;
    }
    l6 = l11;
    l5 = l10;
    l7 = l8;
    if (!(l3 == 0L)) { continue L3; }
    break L3;
   }
  }
  Words.put32(b, ((int) l0) - 58909, 0);
  b[((int) l0) - 58910] = (byte) l6;
  b[((int) l0) - 58911] = (byte) l5;
  b[((int) l0) - 58912] = (byte) l7;
  b[((int) l0) - 58905] = (byte) 0;
  Words.put64(b, ((int) l0) - 58864, l3);
  Words.put64(b, ((int) l0) - 58872, l2);
  Words.put64(b, ((int) l0) - 58880, l18);
  Words.put64(b, ((int) l0) - 58888, l17);
  Words.put64(b, ((int) l0) - 58896, l16);
  Words.put64(b, ((int) l0) - 58904, l15);
  return;
 }
 throw State.trap();
}

static void f9(State m, long l0, long l1) {
 final byte[] b = m.bytes;
 long l2 = 0;
 long l3 = 0;
 int l4 = 0;
 int l5 = 0;
 int l6 = 0;
 int l7 = 0;
 int l8 = 0;
 int l9 = 0;
 m.g0 = l2 = m.g0 - 208L;
 L1: {
  if ((l3 = l2) < 16L) { break L1; }
  l4 = b[((int) (l1 + 2L)) - 58912] & 0xff;
  l5 = b[((int) (l1 + 1L)) - 58912] & 0xff;
  l6 = b[((int) l1) - 58912] & 0xff;
  m.fill((int) (l3 + 8L), 0, (int) 200L);
  l1 = -128L;
  L2: while (true) {
   L3: {
    if (Words.get32(b, State.far((int) (l2 = ((((l7 = Words.get32(b, ((int) (l1 + 66176L)) - 58912)) * 3227) >>> 7) & 0xffffffffL) & 504L), 65536)) != l7) { break L3; }
    if (((b[((int) (l2 + 65540L)) - 58912] & 0xff) & 255) != 1) { break L3; }
    l8 = b[((int) (l2 + 65541L)) - 58912] & 0xff;
    L4: {
     L5: {
      L6: {
       L7: {
        L8: {
         L9: {
          L10: {
           L11: {
            L12: {
             L13: {
              L14: {
               L15: {
                L16: {
                 L17: {
                  L18: {
                   L19: {
                    L20: {
                     L21: {
                      L22: {
                       L23: {
                        L24: {
                         switch (l6) {
                         case 1: break L15;
                         case 2: break L14;
                         case 3: break L13;
                         case 4: break L12;
                         case 5: break L24;
                         case 6: break L23;
                         case 7: break L22;
                         case 8: break L21;
                         case 9: break L20;
                         case 10: break L19;
                         case 11: break L18;
                         case 12: break L17;
                         case 13: break L11;
                         case 14: break L9;
                         case 15: break L7;
                         case 16: break L8;
                         case 17: break L10;
                         case 18: break L6;
                         case 19: break L3;
                         default: break L16;
                         }
                        }
                        if (((l8 + -2) & 255) + Integer.MIN_VALUE < -2147483640) { break L4; }
                        break L3;
                       }
                       if ((l8 + -6) + Integer.MIN_VALUE < -2147483636) { break L5; }
                       switch (l8) {
                       case 2: case 3: case 4: break L5;
                       case 5: break L3;
                       default: break L4;
                       }
                      }
                      L25: {
                       if ((l8 + -6) + Integer.MIN_VALUE < -2147483636) { break L25; }
                       switch (l8) {
                       case 2: case 3: case 4: break L25;
                       case 5: break L3;
                       default: break L4;
                       }
                      }
                      if (((1 << l8) & 261980) == 0) { break L4; }
                      break L3;
                     }
                     if (((1 << l8) & 262012) == 0) { break L4; }
                     break L3;
                    }
                    if (l8 == 1) { break L4; }
                    break L3;
                   }
                   L26: {
                    L27: {
                     L28: {
                      L29: {
                       switch (l4) {
                       case 1: break L27;
                       case 2: break L28;
                       case 3: break L29;
                       default: break L26;
                       }
                      }
                      if (l8 == 4) { break L4; }
                      break L3;
                     }
                     if (l8 == 3) { break L4; }
                     break L3;
                    }
                    if (l8 == 2) { break L4; }
                    break L3;
                   }
                   L30: {
                    L31: {
                     L32: {
                      L33: {
                       L34: {
                        switch (l5) {
                        case 1: break L31;
                        case 2: case 3: break L33;
                        case 4: break L32;
                        case 5: break L30;
                        default: break L34;
                        }
                       }
                       if (((l8 + -5) & 255) + Integer.MIN_VALUE < -2147483645) { break L4; }
                       break L3;
                      }
                      if (((1 << l8) & 261983) == 0) { break L4; }
                      break L3;
                     }
                     if (l8 == 5) { break L4; }
                     break L3;
                    }
                    if ((l8 & 254) == 6) { break L4; }
                    break L3;
                   }
                   if (l8 == 7) { break L4; }
                   break L3;
                  }
                  L35: {
                   L36: {
                    L37: {
                     L38: {
                      switch (l4) {
                      case 1: break L36;
                      case 2: break L37;
                      case 3: break L38;
                      default: break L35;
                      }
                     }
                     if (((l8 + -2) & 255) + Integer.MIN_VALUE < -2147483645) { break L4; }
                     L39: {
                      L40: {
                       L41: {
                        L42: {
                         L43: {
                          switch (l5) {
                          case 1: break L40;
                          case 2: case 3: break L42;
                          case 4: break L41;
                          case 5: break L39;
                          default: break L43;
                          }
                         }
                         if (((l8 + -5) & 255) + Integer.MIN_VALUE < -2147483645) { break L4; }
                         break L3;
                        }
                        if ((l8 + -8) + Integer.MIN_VALUE < -2147483638) { break L3; }
                        if (((1 << l8) & 67) == 0) { break L4; }
                        break L3;
                       }
                       if (l8 == 5) { break L4; }
                       break L3;
                      }
                      if ((l8 & 254) == 6) { break L4; }
                      break L3;
                     }
                     if (l8 == 7) { break L4; }
                     break L3;
                    }
                    if ((l9 = l8 & 254) == 2) { break L4; }
                    L44: {
                     L45: {
                      L46: {
                       L47: {
                        L48: {
                         switch (l5) {
                         case 1: break L45;
                         case 2: case 3: break L47;
                         case 4: break L46;
                         case 5: break L44;
                         default: break L48;
                         }
                        }
                        if (((l8 + -5) & 255) + Integer.MIN_VALUE < -2147483645) { break L4; }
                        break L3;
                       }
                       if (((1 << l8) & 261971) == 0) { break L4; }
                       break L3;
                      }
                      if (l8 == 5) { break L4; }
                      break L3;
                     }
                     if (l9 == 6) { break L4; }
                     break L3;
                    }
                    if (l8 == 7) { break L4; }
                    break L3;
                   }
                   L49: {
                    if ((l8 + -5) + Integer.MIN_VALUE < -2147483635) { break L49; }
                    switch (l8) {
                    case 2: break L4;
                    case 3: case 4: break L3;
                    default: break L49;
                    }
                   }
                   L50: {
                    L51: {
                     L52: {
                      L53: {
                       L54: {
                        switch (l5) {
                        case 1: break L51;
                        case 2: case 3: break L53;
                        case 4: break L52;
                        case 5: break L50;
                        default: break L54;
                        }
                       }
                       if (((l8 + -5) & 255) + Integer.MIN_VALUE < -2147483645) { break L4; }
                       break L3;
                      }
                      if (((1 << l8) & 261983) == 0) { break L4; }
                      break L3;
                     }
                     if (l8 == 5) { break L4; }
                     break L3;
                    }
                    if ((l8 & 254) == 6) { break L4; }
                    break L3;
                   }
                   if (l8 == 7) { break L4; }
                   break L3;
                  }
                  L55: {
                   L56: {
                    L57: {
                     L58: {
                      L59: {
                       switch (l5) {
                       case 1: break L56;
                       case 2: case 3: break L58;
                       case 4: break L57;
                       case 5: break L55;
                       default: break L59;
                       }
                      }
                      if (((l8 + -5) & 255) + Integer.MIN_VALUE < -2147483645) { break L4; }
                      break L3;
                     }
                     if (((1 << l8) & 261983) == 0) { break L4; }
                     break L3;
                    }
                    if (l8 == 5) { break L4; }
                    break L3;
                   }
                   if ((l8 & 254) == 6) { break L4; }
                   break L3;
                  }
                  if (l8 == 7) { break L4; }
                  break L3;
                 }
                 L60: {
                  L61: {
                   L62: {
                    L63: {
                     switch (l4) {
                     case 1: break L61;
                     case 2: break L62;
                     case 3: break L63;
                     default: break L60;
                     }
                    }
                    if (l8 + Integer.MIN_VALUE < -2147483646) { break L4; }
                    L64: {
                     L65: {
                      L66: {
                       L67: {
                        L68: {
                         switch (l5) {
                         case 1: break L65;
                         case 2: case 3: break L67;
                         case 4: break L66;
                         case 5: break L64;
                         default: break L68;
                         }
                        }
                        if (((l8 + -5) & 255) + Integer.MIN_VALUE < -2147483645) { break L4; }
                        break L3;
                       }
                       if (((1 << l8) & 261980) == 0) { break L4; }
                       break L3;
                      }
                      if (l8 == 5) { break L4; }
                      break L3;
                     }
                     if ((l8 & 254) == 6) { break L4; }
                     break L3;
                    }
                    if (l8 == 7) { break L4; }
                    break L3;
                   }
                   if (l8 + Integer.MIN_VALUE < -2147483646) { break L4; }
                   L69: {
                    L70: {
                     L71: {
                      L72: {
                       L73: {
                        switch (l5) {
                        case 1: break L70;
                        case 2: case 3: break L72;
                        case 4: break L71;
                        case 5: break L69;
                        default: break L73;
                        }
                       }
                       if (((l8 + -5) & 255) + Integer.MIN_VALUE < -2147483645) { break L4; }
                       break L3;
                      }
                      if (((1 << l8) & 261980) == 0) { break L4; }
                      break L3;
                     }
                     if (l8 == 5) { break L4; }
                     break L3;
                    }
                    if ((l8 & 254) == 6) { break L4; }
                    break L3;
                   }
                   if (l8 == 7) { break L4; }
                   break L3;
                  }
                  L74: {
                   if ((l8 + -2) + Integer.MIN_VALUE < -2147483632) { break L74; }
                   switch (l8) {
                   case 1: break L4;
                   default: break L3;
                   }
                  }
                  L75: {
                   L76: {
                    L77: {
                     L78: {
                      L79: {
                       switch (l5) {
                       case 1: break L76;
                       case 2: case 3: break L78;
                       case 4: break L77;
                       case 5: break L75;
                       default: break L79;
                       }
                      }
                      if (((l8 + -5) & 255) + Integer.MIN_VALUE < -2147483645) { break L4; }
                      break L3;
                     }
                     if (((1 << l8) & 261980) == 0) { break L4; }
                     break L3;
                    }
                    if (l8 == 5) { break L4; }
                    break L3;
                   }
                   if ((l8 & 254) == 6) { break L4; }
                   break L3;
                  }
                  if (l8 == 7) { break L4; }
                  break L3;
                 }
                 L80: {
                  L81: {
                   L82: {
                    L83: {
                     L84: {
                      switch (l5) {
                      case 1: break L81;
                      case 2: case 3: break L83;
                      case 4: break L82;
                      case 5: break L80;
                      default: break L84;
                      }
                     }
                     if (((l8 + -5) & 255) + Integer.MIN_VALUE < -2147483645) { break L4; }
                     break L3;
                    }
                    if (((1 << l8) & 261983) == 0) { break L4; }
                    break L3;
                   }
                   if (l8 == 5) { break L4; }
                   break L3;
                  }
                  if ((l8 & 254) == 6) { break L4; }
                  break L3;
                 }
                 if (l8 == 7) { break L4; }
                 break L3;
                }
                if (((1 << l8) & 260092) == 0) { break L4; }
                break L3;
               }
               if (l8 == 12) { break L4; }
               break L3;
              }
              if (l8 == 13) { break L4; }
              break L3;
             }
             if (l8 + Integer.MIN_VALUE < -2147483646) { break L4; }
             break L3;
            }
            if (l8 == 7) { break L4; }
            break L3;
           }
           if (((1 << l8) & 261116) == 0) { break L4; }
           break L3;
          }
          if (((1 << l8) & 261117) == 0) { break L4; }
          break L3;
         }
         if (l8 == 1) { break L4; }
         break L3;
        }
        if (l8 == 8) { break L4; }
        break L3;
       }
       if ((l5 & 1) == 0) { break L6; }
       if ((l8 & 254) == 8) { break L4; }
       break L3;
      }
      if (l8 == 9) { break L4; }
      break L3;
     }
     if ((l8 & 254) != 6) { break L3; }
    }
    Words.put32(b, ((int) ((l3 + 8L) + (Words.get64(b, ((int) l3) - 58712) << 2L))) - 58912, l7);
    Words.put64(b, ((int) l3) - 58712, Words.get64(b, ((int) l3) - 58712) + 1L);
   }
   if ((l1 = l1 + 4L) != 0L) { continue L2; }
   break L2;
  }
  m.copy((int) l0, (int) (l3 + 8L), (int) 200L);
  m.g0 = l3 + 208L;
  return;
 }
 throw State.trap();
}

static void f10(State m, long l0, long l1, long l2, long l3, long l4) {
 final byte[] b = m.bytes;
 long l5 = 0;
 long l6 = 0;
 long l7 = 0;
 int l8 = 0;
 int l9 = 0;
 int l10 = 0;
 int l11 = 0;
 m.g0 = l5 = m.g0 - 96L;
 L1: {
  if ((l5 = l5) < 16L) { break L1; }
  l6 = 0L;
  Words.put64(b, ((int) l5) - 58864, 0L);
  Words.put64(b, ((int) l5) - 58872, 0L);
  Words.put64(b, ((int) l5) - 58880, 0L);
  Words.put64(b, ((int) l5) - 58888, 0L);
  Words.put64(b, ((int) l5) - 58896, 0L);
  Words.put64(b, ((int) l5) - 58904, 0L);
  Words.put64(b, ((int) l5) - 58856, Words.get64(b, ((int) l1) - 58912));
  Words.put64(b, ((int) l5) - 58848, Words.get64(b, ((int) l1) - 58904));
  Words.put64(b, ((int) l5) - 58840, Words.get64(b, ((int) l1) - 58896));
  Words.put64(b, ((int) l5) - 58832, Words.get64(b, ((int) l1) - 58888));
  Words.put64(b, ((int) l5) - 58824, Words.get64(b, ((int) l1) - 58880));
  L2: {
   if (l4 == 0L) { break L2; }
   if (l3 == 0L) { break L2; }
   l1 = l5 + 16L;
   l6 = 0L;
   L3: while (true) {
    l9 = (l8 = (int) b[((int) l2) - 58912]) & 255;
    l7 = 1L;
    L4: {
     if (l8 > -1) { break L4; }
     l10 = (b[((int) l2) - 58911] & 0xff) & 63;
     L5: {
      if (l8 + Integer.MIN_VALUE > 2147483615) { break L5; }
      l9 = ((l9 << 6) & 1984) | l10;
      l7 = 2L;
      break L4;
     }
     l11 = (b[((int) l2) - 58910] & 0xff) & 63;
     L6: {
      if (l8 + Integer.MIN_VALUE > 2147483631) { break L6; }
      l9 = ((l10 << 6) | ((l9 << 12) & 61440)) | l11;
      l7 = 3L;
      break L4;
     }
     l9 = ((l11 << 6) | ((l10 << 12) | ((l9 << 18) & 1835008))) | ((b[((int) l2) - 58909] & 0xff) & 63);
     l7 = 4L;
    }
    f20(m, l5 + 8L, l5 + 56L, l9);
    if ((b[((int) l5) - 58904] & 0xff) != 1) { break L2; }
    Words.put64(b, ((int) l5) - 58824, Words.get64(b, ((int) l1) - 58880));
    Words.put64(b, ((int) l5) - 58832, Words.get64(b, ((int) l1) - 58888));
    Words.put64(b, ((int) l5) - 58840, Words.get64(b, ((int) l1) - 58896));
    Words.put64(b, ((int) l5) - 58848, Words.get64(b, ((int) l1) - 58904));
    Words.put64(b, ((int) l5) - 58856, Words.get64(b, ((int) l1) - 58912));
    l2 = l2 + l7;
    l3 = l3 - l7;
    if ((l6 = l6 + 1L) + Long.MIN_VALUE >= l4 + Long.MIN_VALUE) { break L2; }
    if (l3 != 0L) { continue L3; }
    break L3;
   }
  }
  Words.put64(b, ((int) l0) - 58880, Words.get64(b, ((int) l5) - 58824));
  Words.put64(b, ((int) l0) - 58888, Words.get64(b, ((int) l5) - 58832));
  Words.put64(b, ((int) l0) - 58896, Words.get64(b, ((int) l5) - 58840));
  Words.put64(b, ((int) l0) - 58904, Words.get64(b, ((int) l5) - 58848));
  Words.put64(b, ((int) l0) - 58912, Words.get64(b, ((int) l5) - 58856));
  Words.put64(b, ((int) l0) - 58856, l3);
  Words.put64(b, ((int) l0) - 58864, l2);
  Words.put64(b, ((int) l0) - 58872, l6);
  m.g0 = l5 + 96L;
  return;
 }
 throw State.trap();
}

static void f11(State m, long l0, long l1) {
 final byte[] b = m.bytes;
 long l2 = 0;
 int l3 = 0;
 m.g0 = l2 = m.g0 - 288L;
 Words.put64(b, ((int) (l2 = l2)) - 58632, Words.get64(b, ((int) l1) - 58880));
 Words.put64(b, ((int) l2) - 58640, Words.get64(b, ((int) l1) - 58888));
 Words.put64(b, ((int) l2) - 58648, Words.get64(b, ((int) l1) - 58896));
 Words.put64(b, ((int) l2) - 58656, Words.get64(b, ((int) l1) - 58904));
 Words.put64(b, ((int) l2) - 58664, Words.get64(b, ((int) l1) - 58912));
 L1: {
  if (l2 < 16L) { break L1; }
  Words.put64(b, ((int) l2) - 58872, 0L);
  Words.put64(b, ((int) l2) - 58880, 0L);
  Words.put64(b, ((int) l2) - 58888, 0L);
  Words.put64(b, ((int) l2) - 58896, 0L);
  Words.put64(b, ((int) l2) - 58904, 0L);
  Words.put64(b, ((int) l2) - 58912, 0L);
  m.fill((int) (l2 + 48L), 0, (int) 200L);
  l1 = -136L;
  L2: while (true) {
   f20(m, l2, l2 + 248L, l3 = Words.get32(b, ((int) (l1 + 66184L)) - 58912));
   L3: {
    if ((b[((int) l2) - 58912] & 0xff) != 1) { break L3; }
    Words.put32(b, ((int) ((l2 + 48L) + (Words.get64(b, ((int) l2) - 58672) << 2L))) - 58912, l3);
    Words.put64(b, ((int) l2) - 58672, Words.get64(b, ((int) l2) - 58672) + 1L);
   }
   if ((l1 = l1 + 4L) != 0L) { continue L2; }
   break L2;
  }
  m.copy((int) l0, (int) (l2 + 48L), (int) 200L);
  m.g0 = l2 + 288L;
  return;
 }
 throw State.trap();
}

static void f12(State m, long l0, long l1, long l2, long l3, long l4) {
 final byte[] b = m.bytes;
 long l5 = 0;
 long l6 = 0;
 long l7 = 0;
 long l8 = 0;
 int l9 = 0;
 int l10 = 0;
 int l11 = 0;
 int l12 = 0;
 m.g0 = l5 = m.g0 - 128L;
 L1: {
  L2: {
   if ((l5 = l5) < 16L) { break L2; }
   l6 = 0L;
   Words.put64(b, ((int) l5) - 58880, 0L);
   Words.put64(b, ((int) l5) - 58888, 0L);
   Words.put64(b, ((int) l5) - 58896, 0L);
   Words.put64(b, ((int) l5) - 58904, 0L);
   Words.put64(b, ((int) l5) - 58912, 0L);
   Words.put64(b, ((int) l5) - 58872, Words.get64(b, ((int) l1) - 58912));
   Words.put64(b, ((int) l5) - 58864, Words.get64(b, ((int) l1) - 58904));
   Words.put64(b, ((int) l5) - 58856, Words.get64(b, ((int) l1) - 58896));
   Words.put64(b, ((int) l5) - 58848, Words.get64(b, ((int) l1) - 58888));
   Words.put64(b, ((int) l5) - 58840, Words.get64(b, ((int) l1) - 58880));
   L3: {
    if (l4 == 0L) { break L3; }
    if (l3 == 0L) { break L3; }
    l7 = l5 + 88L;
    l6 = 0L;
    L4: while (true) {
     l8 = l2 + 1L;
     l10 = (l9 = (int) b[((int) l2) - 58912]) & 255;
     L5: {
      L6: {
       L7: {
        L8: {
         L9: {
          L10: {
           if (l9 < 0) { break L10; }
           Words.put64(b, ((int) l5) - 58792, 0L);
           Words.put64(b, ((int) l5) - 58800, 0L);
           Words.put64(b, ((int) l5) - 58808, 0L);
           Words.put64(b, ((int) l5) - 58816, 0L);
           Words.put64(b, ((int) l5) - 58824, 0L);
           Words.put64(b, ((int) l5) - 58832, 0L);
           l1 = l3 + -1L;
           break L9;
          }
          l11 = (b[((int) l8) - 58912] & 0xff) & 63;
          L11: {
           L12: {
            if (l9 + Integer.MIN_VALUE > 2147483615) { break L12; }
            l10 = ((l10 << 6) & 1984) | l11;
            l8 = 2L;
            break L11;
           }
           l12 = (b[((int) l2) - 58910] & 0xff) & 63;
           L13: {
            if (l9 + Integer.MIN_VALUE > 2147483631) { break L13; }
            l10 = ((l11 << 6) | ((l10 << 12) & 61440)) | l12;
            l8 = 3L;
            break L11;
           }
           l10 = ((l12 << 6) | ((l11 << 12) | ((l10 << 18) & 1835008))) | ((b[((int) l2) - 58909] & 0xff) & 63);
           l8 = 4L;
          }
          Words.put64(b, ((int) l5) - 58792, 0L);
          Words.put64(b, ((int) l5) - 58800, 0L);
          Words.put64(b, ((int) l5) - 58808, 0L);
          Words.put64(b, ((int) l5) - 58816, 0L);
          Words.put64(b, ((int) l5) - 58824, 0L);
          Words.put64(b, ((int) l5) - 58832, 0L);
          l1 = l3 - l8;
          l8 = l2 + l8;
          if (l10 + Integer.MIN_VALUE > -2147483521) { break L8; }
         }
         if ((l10 + -9) + Integer.MIN_VALUE < -2147483643) { break L6; }
         if (l10 != 32) { break L7; }
         break L6;
        }
        if ((l10 + -8192) + Integer.MIN_VALUE < -2147483637) { break L6; }
        L14: {
         if (l10 > 8231) { break L14; }
         if (l10 == 133) { break L6; }
         if (l10 == 160) { break L6; }
         if (l10 != 5760) { break L7; }
         break L6;
        }
        L15: {
         if ((l9 = l10 + -8232) + Integer.MIN_VALUE > -2147483593) { break L15; }
         if (((1L << (l9 & 0xffffffffL)) & 36028797018964099L) != 0L) { break L6; }
        }
        if (l10 == 12288) { break L6; }
       }
       f21(m, l5 + 80L, l5 + 40L, l10);
       if ((b[((int) l5) - 58832] & 0xff) != 1) { break L3; }
       Words.put64(b, ((int) l5) - 58880, Words.get64(b, ((int) l7) - 58880));
       Words.put64(b, ((int) l5) - 58888, Words.get64(b, ((int) l7) - 58888));
       Words.put64(b, ((int) l5) - 58896, Words.get64(b, ((int) l7) - 58896));
       Words.put64(b, ((int) l5) - 58904, Words.get64(b, ((int) l7) - 58904));
       Words.put64(b, ((int) l5) - 58912, Words.get64(b, ((int) l7) - 58912));
       break L5;
      }
      Words.put64(b, ((int) l5) - 58880, Words.get64(b, ((int) l5) - 58840));
      Words.put64(b, ((int) l5) - 58888, Words.get64(b, ((int) l5) - 58848));
      Words.put64(b, ((int) l5) - 58896, Words.get64(b, ((int) l5) - 58856));
      Words.put64(b, ((int) l5) - 58904, Words.get64(b, ((int) l5) - 58864));
      Words.put64(b, ((int) l5) - 58912, Words.get64(b, ((int) l5) - 58872));
     }
     Words.put64(b, ((int) l5) - 58872, Words.get64(b, ((int) l5) - 58912));
     Words.put64(b, ((int) l5) - 58864, Words.get64(b, ((int) l5) - 58904));
     Words.put64(b, ((int) l5) - 58856, Words.get64(b, ((int) l5) - 58896));
     Words.put64(b, ((int) l5) - 58848, Words.get64(b, ((int) l5) - 58888));
     Words.put64(b, ((int) l5) - 58840, Words.get64(b, ((int) l5) - 58880));
     if ((l6 = l6 + 1L) + Long.MIN_VALUE >= l4 + Long.MIN_VALUE) { break L1; }
     l3 = l1;
     l2 = l8;
     if (l1 != 0L) { continue L4; }
     break L1;
    }
   }
   l8 = l2;
   l1 = l3;
   break L1;
  }
  throw State.trap();
 }
 Words.put64(b, ((int) l0) - 58880, Words.get64(b, ((int) l5) - 58840));
 Words.put64(b, ((int) l0) - 58888, Words.get64(b, ((int) l5) - 58848));
 Words.put64(b, ((int) l0) - 58896, Words.get64(b, ((int) l5) - 58856));
 Words.put64(b, ((int) l0) - 58904, Words.get64(b, ((int) l5) - 58864));
 Words.put64(b, ((int) l0) - 58912, Words.get64(b, ((int) l5) - 58872));
 Words.put64(b, ((int) l0) - 58856, l1);
 Words.put64(b, ((int) l0) - 58864, l8);
 Words.put64(b, ((int) l0) - 58872, l6);
 m.g0 = l5 + 128L;
}

static void f13(State m, long l0, long l1) {
 final byte[] b = m.bytes;
 long l2 = 0;
 long l3 = 0;
 int l4 = 0;
 int l5 = 0;
 m.g0 = l2 = m.g0 - 288L;
 L1: {
  if ((l2 = l2) < 16L) { break L1; }
  m.fill((int) l2, 0, (int) 200L);
  l3 = -188L;
  L2: while (true) {
   Words.put64(b, ((int) l2) - 58672, 0L);
   Words.put64(b, ((int) l2) - 58664, 0L);
   Words.put64(b, ((int) l2) - 58656, 0L);
   Words.put64(b, ((int) l2) - 58648, 0L);
   Words.put64(b, ((int) l2) - 58640, 0L);
   Words.put64(b, ((int) l2) - 58632, 0L);
   L3: {
    L4: {
     L5: {
      L6: {
       if ((l4 = Words.get32(b, ((int) (l3 + 66236L)) - 58912)) + Integer.MIN_VALUE > -2147483521) { break L6; }
       if ((l4 + -9) + Integer.MIN_VALUE < -2147483643) { break L4; }
       if (l4 != 32) { break L5; }
       break L4;
      }
      if ((l4 + -8192) + Integer.MIN_VALUE < -2147483637) { break L4; }
      L7: {
       if (l4 > 8231) { break L7; }
       if (l4 == 133) { break L4; }
       if (l4 == 160) { break L4; }
       if (l4 != 5760) { break L5; }
       break L4;
      }
      L8: {
       if ((l5 = l4 + -8232) + Integer.MIN_VALUE > -2147483593) { break L8; }
       if (((1L << (l5 & 0xffffffffL)) & 36028797018964099L) != 0L) { break L4; }
      }
      if (l4 == 12288) { break L4; }
     }
     Words.put64(b, ((int) l2) - 58680, Words.get64(b, ((int) l1) - 58880));
     Words.put64(b, ((int) l2) - 58688, Words.get64(b, ((int) l1) - 58888));
     Words.put64(b, ((int) l2) - 58696, Words.get64(b, ((int) l1) - 58896));
     Words.put64(b, ((int) l2) - 58704, Words.get64(b, ((int) l1) - 58904));
     Words.put64(b, ((int) l2) - 58712, Words.get64(b, ((int) l1) - 58912));
     f21(m, l2 + 240L, l2 + 200L, l4);
     if ((b[((int) l2) - 58672] & 0xff) != 1) { break L3; }
    }
    Words.put32(b, ((int) (l2 + (Words.get64(b, ((int) l2) - 58720) << 2L))) - 58912, l4);
    Words.put64(b, ((int) l2) - 58720, Words.get64(b, ((int) l2) - 58720) + 1L);
   }
   if ((l3 = l3 + 4L) != 0L) { continue L2; }
   break L2;
  }
  m.copy((int) l0, (int) l2, (int) 200L);
  m.g0 = l2 + 288L;
  return;
 }
 throw State.trap();
}

static void f14(State m, long l0, long l1, long l2, long l3, long l4) {
 final byte[] b = m.bytes;
 long l5 = 0;
 long l6 = 0;
 long l7 = 0;
 long l8 = 0;
 int l9 = 0;
 int l10 = 0;
 int l11 = 0;
 int l12 = 0;
 m.g0 = l5 = m.g0 - 128L;
 L1: {
  L2: {
   if ((l5 = l5) < 16L) { break L2; }
   l6 = 0L;
   Words.put64(b, ((int) l5) - 58880, 0L);
   Words.put64(b, ((int) l5) - 58888, 0L);
   Words.put64(b, ((int) l5) - 58896, 0L);
   Words.put64(b, ((int) l5) - 58904, 0L);
   Words.put64(b, ((int) l5) - 58912, 0L);
   Words.put64(b, ((int) l5) - 58872, Words.get64(b, ((int) l1) - 58912));
   Words.put64(b, ((int) l5) - 58864, Words.get64(b, ((int) l1) - 58904));
   Words.put64(b, ((int) l5) - 58856, Words.get64(b, ((int) l1) - 58896));
   Words.put64(b, ((int) l5) - 58848, Words.get64(b, ((int) l1) - 58888));
   Words.put64(b, ((int) l5) - 58840, Words.get64(b, ((int) l1) - 58880));
   L3: {
    if (l4 == 0L) { break L3; }
    if (l3 == 0L) { break L3; }
    l7 = l5 + 88L;
    l6 = 0L;
    L4: while (true) {
     l8 = l2 + 1L;
     l10 = (l9 = (int) b[((int) l2) - 58912]) & 255;
     L5: {
      L6: {
       L7: {
        L8: {
         L9: {
          L10: {
           if (l9 < 0) { break L10; }
           Words.put64(b, ((int) l5) - 58792, 0L);
           Words.put64(b, ((int) l5) - 58800, 0L);
           Words.put64(b, ((int) l5) - 58808, 0L);
           Words.put64(b, ((int) l5) - 58816, 0L);
           Words.put64(b, ((int) l5) - 58824, 0L);
           Words.put64(b, ((int) l5) - 58832, 0L);
           l1 = l3 + -1L;
           break L9;
          }
          l11 = (b[((int) l8) - 58912] & 0xff) & 63;
          L11: {
           L12: {
            if (l9 + Integer.MIN_VALUE > 2147483615) { break L12; }
            l10 = ((l10 << 6) & 1984) | l11;
            l8 = 2L;
            break L11;
           }
           l12 = (b[((int) l2) - 58910] & 0xff) & 63;
           L13: {
            if (l9 + Integer.MIN_VALUE > 2147483631) { break L13; }
            l10 = ((l11 << 6) | ((l10 << 12) & 61440)) | l12;
            l8 = 3L;
            break L11;
           }
           l10 = ((l12 << 6) | ((l11 << 12) | ((l10 << 18) & 1835008))) | ((b[((int) l2) - 58909] & 0xff) & 63);
           l8 = 4L;
          }
          Words.put64(b, ((int) l5) - 58792, 0L);
          Words.put64(b, ((int) l5) - 58800, 0L);
          Words.put64(b, ((int) l5) - 58808, 0L);
          Words.put64(b, ((int) l5) - 58816, 0L);
          Words.put64(b, ((int) l5) - 58824, 0L);
          Words.put64(b, ((int) l5) - 58832, 0L);
          l1 = l3 - l8;
          l8 = l2 + l8;
          if (l10 + Integer.MIN_VALUE > -2147483521) { break L8; }
         }
         if ((l10 + -9) + Integer.MIN_VALUE < -2147483643) { break L6; }
         if (l10 != 32) { break L7; }
         break L6;
        }
        if ((l10 + -8192) + Integer.MIN_VALUE < -2147483637) { break L6; }
        L14: {
         if (l10 > 8231) { break L14; }
         if (l10 == 133) { break L6; }
         if (l10 == 160) { break L6; }
         if (l10 != 5760) { break L7; }
         break L6;
        }
        L15: {
         if ((l9 = l10 + -8232) + Integer.MIN_VALUE > -2147483593) { break L15; }
         if (((1L << (l9 & 0xffffffffL)) & 36028797018964099L) != 0L) { break L6; }
        }
        if (l10 == 12288) { break L6; }
       }
       f21(m, l5 + 80L, l5 + 40L, l10);
       if ((b[((int) l5) - 58832] & 0xff) != 1) { break L3; }
       Words.put64(b, ((int) l5) - 58880, Words.get64(b, ((int) l7) - 58880));
       Words.put64(b, ((int) l5) - 58888, Words.get64(b, ((int) l7) - 58888));
       Words.put64(b, ((int) l5) - 58896, Words.get64(b, ((int) l7) - 58896));
       Words.put64(b, ((int) l5) - 58904, Words.get64(b, ((int) l7) - 58904));
       Words.put64(b, ((int) l5) - 58912, Words.get64(b, ((int) l7) - 58912));
       break L5;
      }
      Words.put64(b, ((int) l5) - 58880, Words.get64(b, ((int) l5) - 58840));
      Words.put64(b, ((int) l5) - 58888, Words.get64(b, ((int) l5) - 58848));
      Words.put64(b, ((int) l5) - 58896, Words.get64(b, ((int) l5) - 58856));
      Words.put64(b, ((int) l5) - 58904, Words.get64(b, ((int) l5) - 58864));
      Words.put64(b, ((int) l5) - 58912, Words.get64(b, ((int) l5) - 58872));
     }
     Words.put64(b, ((int) l5) - 58872, Words.get64(b, ((int) l5) - 58912));
     Words.put64(b, ((int) l5) - 58864, Words.get64(b, ((int) l5) - 58904));
     Words.put64(b, ((int) l5) - 58856, Words.get64(b, ((int) l5) - 58896));
     Words.put64(b, ((int) l5) - 58848, Words.get64(b, ((int) l5) - 58888));
     Words.put64(b, ((int) l5) - 58840, Words.get64(b, ((int) l5) - 58880));
     if ((l6 = l6 + 1L) + Long.MIN_VALUE >= l4 + Long.MIN_VALUE) { break L1; }
     l3 = l1;
     l2 = l8;
     if (l1 != 0L) { continue L4; }
     break L1;
    }
   }
   l8 = l2;
   l1 = l3;
   break L1;
  }
  throw State.trap();
 }
 Words.put64(b, ((int) l0) - 58880, Words.get64(b, ((int) l5) - 58840));
 Words.put64(b, ((int) l0) - 58888, Words.get64(b, ((int) l5) - 58848));
 Words.put64(b, ((int) l0) - 58896, Words.get64(b, ((int) l5) - 58856));
 Words.put64(b, ((int) l0) - 58904, Words.get64(b, ((int) l5) - 58864));
 Words.put64(b, ((int) l0) - 58912, Words.get64(b, ((int) l5) - 58872));
 Words.put64(b, ((int) l0) - 58856, l1);
 Words.put64(b, ((int) l0) - 58864, l8);
 Words.put64(b, ((int) l0) - 58872, l6);
 m.g0 = l5 + 128L;
}

static void f15(State m, long l0, long l1) {
 final byte[] b = m.bytes;
 long l2 = 0;
 long l3 = 0;
 int l4 = 0;
 int l5 = 0;
 m.g0 = l2 = m.g0 - 288L;
 L1: {
  if ((l2 = l2) < 16L) { break L1; }
  m.fill((int) l2, 0, (int) 200L);
  l3 = -188L;
  L2: while (true) {
   Words.put64(b, ((int) l2) - 58672, 0L);
   Words.put64(b, ((int) l2) - 58664, 0L);
   Words.put64(b, ((int) l2) - 58656, 0L);
   Words.put64(b, ((int) l2) - 58648, 0L);
   Words.put64(b, ((int) l2) - 58640, 0L);
   Words.put64(b, ((int) l2) - 58632, 0L);
   L3: {
    L4: {
     L5: {
      L6: {
       if ((l4 = Words.get32(b, ((int) (l3 + 66236L)) - 58912)) + Integer.MIN_VALUE > -2147483521) { break L6; }
       if ((l4 + -9) + Integer.MIN_VALUE < -2147483643) { break L4; }
       if (l4 != 32) { break L5; }
       break L4;
      }
      if ((l4 + -8192) + Integer.MIN_VALUE < -2147483637) { break L4; }
      L7: {
       if (l4 > 8231) { break L7; }
       if (l4 == 133) { break L4; }
       if (l4 == 160) { break L4; }
       if (l4 != 5760) { break L5; }
       break L4;
      }
      L8: {
       if ((l5 = l4 + -8232) + Integer.MIN_VALUE > -2147483593) { break L8; }
       if (((1L << (l5 & 0xffffffffL)) & 36028797018964099L) != 0L) { break L4; }
      }
      if (l4 == 12288) { break L4; }
     }
     Words.put64(b, ((int) l2) - 58680, Words.get64(b, ((int) l1) - 58880));
     Words.put64(b, ((int) l2) - 58688, Words.get64(b, ((int) l1) - 58888));
     Words.put64(b, ((int) l2) - 58696, Words.get64(b, ((int) l1) - 58896));
     Words.put64(b, ((int) l2) - 58704, Words.get64(b, ((int) l1) - 58904));
     Words.put64(b, ((int) l2) - 58712, Words.get64(b, ((int) l1) - 58912));
     f21(m, l2 + 240L, l2 + 200L, l4);
     if ((b[((int) l2) - 58672] & 0xff) != 1) { break L3; }
    }
    Words.put32(b, ((int) (l2 + (Words.get64(b, ((int) l2) - 58720) << 2L))) - 58912, l4);
    Words.put64(b, ((int) l2) - 58720, Words.get64(b, ((int) l2) - 58720) + 1L);
   }
   if ((l3 = l3 + 4L) != 0L) { continue L2; }
   break L2;
  }
  m.copy((int) l0, (int) l2, (int) 200L);
  m.g0 = l2 + 288L;
  return;
 }
 throw State.trap();
}

static void f16(State m, long l0, long l1, long l2, long l3, long l4) {
 final byte[] b = m.bytes;
 long l5 = 0;
 long l6 = 0;
 int l7 = 0;
 int l8 = 0;
 int l9 = 0;
 int l10 = 0;
 int l11 = 0;
 int l12 = 0;
 int l13 = 0;
 int l14 = 0;
 int l15 = 0;
 m.g0 = l5 = m.g0 - 32L;
 L1: {
  if ((l5 = l5) < 16L) { break L1; }
  Words.put16(b, ((int) l5) - 58882, (short) 0);
  l6 = 0L;
  Words.put64(b, ((int) l5) - 58904, 0L);
  Words.put32(b, ((int) l5) - 58896, 0);
  Words.put16(b, ((int) l5) - 58890, (short) (l7 = b[((int) l1) - 58912] & 0xff));
  b[((int) l5) - 58882] = (byte) (l8 = b[((int) (l1 + 8L)) - 58912] & 0xff);
  b[((int) l5) - 58883] = (byte) (l9 = b[((int) (l1 + 7L)) - 58912] & 0xff);
  b[((int) l5) - 58884] = (byte) (l10 = b[((int) (l1 + 6L)) - 58912] & 0xff);
  Words.put32(b, ((int) l5) - 58888, l11 = Words.get32(b, ((int) (l1 + 2L)) - 58912));
  L2: {
   if (l4 == 0L) { break L2; }
   if (l3 == 0L) { break L2; }
   l6 = 0L;
   L3: while (true) {
    l13 = (l12 = (int) b[((int) l2) - 58912]) & 255;
    l1 = 1L;
    L4: {
     if (l12 > -1) { break L4; }
     l14 = (b[((int) l2) - 58911] & 0xff) & 63;
     L5: {
      if (l12 + Integer.MIN_VALUE > 2147483615) { break L5; }
      l13 = ((l13 << 6) & 1984) | l14;
      l1 = 2L;
      break L4;
     }
     l15 = (b[((int) l2) - 58910] & 0xff) & 63;
     L6: {
      if (l12 + Integer.MIN_VALUE > 2147483631) { break L6; }
      l13 = ((l14 << 6) | ((l13 << 12) & 61440)) | l15;
      l1 = 3L;
      break L4;
     }
     l13 = ((l15 << 6) | ((l14 << 12) | ((l13 << 18) & 1835008))) | ((b[((int) l2) - 58909] & 0xff) & 63);
     l1 = 4L;
    }
    f22(m, l5 + 8L, l5 + 22L, l13);
    L7: {
     if ((b[((int) l5) - 58904] & 0xff) == 1) { break L7; }
     l7 = l7 & 255;
     break L2;
    }
    b[((int) l5) - 58882] = (byte) (l8 = b[((int) l5) - 58894] & 0xff);
    b[((int) l5) - 58883] = (byte) (l9 = b[((int) l5) - 58895] & 0xff);
    b[((int) l5) - 58884] = (byte) (l10 = b[((int) l5) - 58896] & 0xff);
    Words.put32(b, ((int) l5) - 58888, l11 = Words.get32(b, ((int) l5) - 58900));
    Words.put16(b, ((int) l5) - 58890, (short) (l7 = b[((int) l5) - 58902] & 0xff));
    l2 = l2 + l1;
    l3 = l3 - l1;
    if ((l6 = l6 + 1L) + Long.MIN_VALUE >= l4 + Long.MIN_VALUE) { break L2; }
    if (l3 != 0L) { continue L3; }
    break L3;
   }
  }
  Words.put32(b, ((int) l0) - 58903, 0);
  b[((int) l0) - 58904] = (byte) l8;
  b[((int) l0) - 58905] = (byte) l9;
  b[((int) l0) - 58906] = (byte) l10;
  Words.put32(b, ((int) l0) - 58910, l11);
  Words.put16(b, ((int) l0) - 58912, (short) l7);
  Words.put32(b, ((int) l0) - 58900, 0);
  Words.put64(b, ((int) l0) - 58880, l3);
  Words.put64(b, ((int) l0) - 58888, l2);
  Words.put64(b, ((int) l0) - 58896, l6);
  m.g0 = l5 + 32L;
  return;
 }
 throw State.trap();
}

static void f17(State m, long l0, long l1) {
 final byte[] b = m.bytes;
 long l2 = 0;
 int l3 = 0;
 m.g0 = l2 = m.g0 - 240L;
 Words.put16(b, ((int) (l2 = l2)) - 58674, (short) 0);
 Words.put16(b, ((int) l2) - 58682, (short) (b[((int) l1) - 58912] & 0xff));
 Words.put32(b, ((int) l2) - 58680, Words.get32(b, ((int) (l1 + 2L)) - 58912));
 Words.put16(b, ((int) l2) - 58676, (short) (Words.get16(b, ((int) (l1 + 6L)) - 58912) & 0xffff));
 b[((int) l2) - 58674] = (byte) (b[((int) (l1 + 8L)) - 58912] & 0xff);
 L1: {
  if (l2 < 16L) { break L1; }
  Words.put32(b, ((int) l2) - 58896, 0);
  Words.put64(b, ((int) l2) - 58904, 0L);
  m.fill((int) (l2 + 24L), 0, (int) 200L);
  l1 = -72L;
  L2: while (true) {
   f22(m, l2 + 8L, l2 + 230L, l3 = Words.get32(b, ((int) (l1 + 66564L)) - 58912));
   L3: {
    if ((b[((int) l2) - 58904] & 0xff) != 1) { break L3; }
    Words.put32(b, ((int) ((l2 + 24L) + (Words.get64(b, ((int) l2) - 58696) << 2L))) - 58912, l3);
    Words.put64(b, ((int) l2) - 58696, Words.get64(b, ((int) l2) - 58696) + 1L);
   }
   if ((l1 = l1 + 4L) != 0L) { continue L2; }
   break L2;
  }
  m.copy((int) l0, (int) (l2 + 24L), (int) 200L);
  m.g0 = l2 + 240L;
  return;
 }
 throw State.trap();
}

static void f18(State m, long l0, long l1, long l2, long l3, long l4) {
 final byte[] b = m.bytes;
 long l5 = 0;
 long l6 = 0;
 long l7 = 0;
 long l8 = 0;
 int l9 = 0;
 int l10 = 0;
 int l11 = 0;
 int l12 = 0;
 int l13 = 0;
 int l14 = 0;
 int l15 = 0;
 m.g0 = l5 = m.g0 - 80L;
 L1: {
  if ((l5 = l5) < 16L) { break L1; }
  l6 = 0L;
  Words.put64(b, ((int) l5) - 58864, 0L);
  Words.put64(b, ((int) l5) - 58856, 0L);
  Words.put64(b, ((int) l5) - 58904, 0L);
  Words.put64(b, ((int) l5) - 58896, 0L);
  Words.put64(b, ((int) l5) - 58888, 0L);
  Words.put64(b, ((int) l5) - 58880, 0L);
  Words.put64(b, ((int) l5) - 58872, 0L);
  b[((int) l5) - 58864] = (byte) (l9 = b[((int) l1) - 58912] & 0xff);
  b[((int) l5) - 58856] = (byte) (l10 = b[((int) (l1 + 8L)) - 58912] & 0xff);
  Words.put64(b, ((int) l5) - 58840, l7 = Words.get64(b, ((int) (l1 + 24L)) - 58912));
  Words.put64(b, ((int) l5) - 58848, l8 = ((l11 = b[((int) (l1 + 16L)) - 58912] & 0xff) & 0xffffffffL) & 255L);
  L2: {
   if (l4 == 0L) { break L2; }
   if (l3 == 0L) { break L2; }
   l6 = 0L;
   L3: while (true) {
    l13 = (l12 = (int) b[((int) l2) - 58912]) & 255;
    l1 = 1L;
    L4: {
     if (l12 > -1) { break L4; }
     l14 = (b[((int) l2) - 58911] & 0xff) & 63;
     L5: {
      if (l12 + Integer.MIN_VALUE > 2147483615) { break L5; }
      l13 = ((l13 << 6) & 1984) | l14;
      l1 = 2L;
      break L4;
     }
     l15 = (b[((int) l2) - 58910] & 0xff) & 63;
     L6: {
      if (l12 + Integer.MIN_VALUE > 2147483631) { break L6; }
      l13 = ((l14 << 6) | ((l13 << 12) & 61440)) | l15;
      l1 = 3L;
      break L4;
     }
     l13 = ((l15 << 6) | ((l14 << 12) | ((l13 << 18) & 1835008))) | ((b[((int) l2) - 58909] & 0xff) & 63);
     l1 = 4L;
    }
    f23(m, l5 + 8L, l5 + 48L, l13);
    L7: {
     if ((b[((int) l5) - 58904] & 0xff) == 1) { break L7; }
     l8 = (l11 & 0xffffffffL) & 255L;
     break L2;
    }
    Words.put64(b, ((int) l5) - 58840, l7 = Words.get64(b, ((int) l5) - 58872));
    b[((int) l5) - 58856] = (byte) (l10 = b[((int) l5) - 58888] & 0xff);
    b[((int) l5) - 58864] = (byte) (l9 = b[((int) l5) - 58896] & 0xff);
    Words.put64(b, ((int) l5) - 58848, l8 = ((l11 = b[((int) l5) - 58880] & 0xff) & 0xffffffffL) & 255L);
    l2 = l2 + l1;
    l3 = l3 - l1;
    if ((l6 = l6 + 1L) + Long.MIN_VALUE >= l4 + Long.MIN_VALUE) { break L2; }
    if (l3 != 0L) { continue L3; }
    break L3;
   }
  }
  Words.put32(b, ((int) l0) - 58911, 0);
  b[((int) l0) - 58912] = (byte) l9;
  Words.put32(b, ((int) l0) - 58908, 0);
  Words.put32(b, ((int) l0) - 58903, 0);
  b[((int) l0) - 58904] = (byte) l10;
  Words.put32(b, ((int) l0) - 58900, 0);
  Words.put64(b, ((int) l0) - 58864, l3);
  Words.put64(b, ((int) l0) - 58872, l2);
  Words.put64(b, ((int) l0) - 58880, l6);
  Words.put64(b, ((int) l0) - 58888, l7);
  Words.put64(b, ((int) l0) - 58896, l8);
  m.g0 = l5 + 80L;
  return;
 }
 throw State.trap();
}

static void f19(State m, long l0, long l1) {
 final byte[] b = m.bytes;
 long l2 = 0;
 int l3 = 0;
 m.g0 = l2 = m.g0 - 272L;
 Words.put64(b, ((int) (l2 = l2)) - 58672, 0L);
 Words.put64(b, ((int) l2) - 58664, 0L);
 b[((int) l2) - 58672] = (byte) (b[((int) l1) - 58912] & 0xff);
 b[((int) l2) - 58664] = (byte) (b[((int) (l1 + 8L)) - 58912] & 0xff);
 Words.put64(b, ((int) l2) - 58656, b[((int) (l1 + 16L)) - 58912] & 0xffL);
 Words.put64(b, ((int) l2) - 58648, Words.get64(b, ((int) (l1 + 24L)) - 58912));
 L1: {
  if (l2 < 16L) { break L1; }
  Words.put64(b, ((int) l2) - 58880, 0L);
  Words.put64(b, ((int) l2) - 58888, 0L);
  Words.put64(b, ((int) l2) - 58896, 0L);
  Words.put64(b, ((int) l2) - 58904, 0L);
  Words.put64(b, ((int) l2) - 58912, 0L);
  m.fill((int) (l2 + 40L), 0, (int) 200L);
  l1 = -116L;
  L2: while (true) {
   f23(m, l2, l2 + 240L, l3 = Words.get32(b, ((int) (l1 + 66680L)) - 58912));
   L3: {
    if ((b[((int) l2) - 58912] & 0xff) != 1) { break L3; }
    Words.put32(b, ((int) ((l2 + 40L) + (Words.get64(b, ((int) l2) - 58680) << 2L))) - 58912, l3);
    Words.put64(b, ((int) l2) - 58680, Words.get64(b, ((int) l2) - 58680) + 1L);
   }
   if ((l1 = l1 + 4L) != 0L) { continue L2; }
   break L2;
  }
  m.copy((int) l0, (int) (l2 + 40L), (int) 200L);
  m.g0 = l2 + 272L;
  return;
 }
 throw State.trap();
}

static void f20(State m, long l0, long l1, int l2) {
 final byte[] b = m.bytes;
 long l3 = 0;
 long l4 = 0;
 long l5 = 0;
 long l6 = 0;
 long l7 = 0;
 int l8 = 0;
 int l9 = 0;
 int l10 = 0;
 int l11 = 0;
 int l12 = 0;
 int l13 = 0;
 int l14 = 0;
 L1: {
  L2: {
   L3: {
    L4: {
     L5: {
      L6: {
       L7: {
        if (m.g0 < 16L) { break L7; }
        l3 = Words.get64(b, ((int) l1) - 58880);
        l4 = Words.get64(b, ((int) l1) - 58888);
        l5 = Words.get64(b, ((int) l1) - 58896);
        l8 = b[((int) l1) - 58902] & 0xff;
        l9 = b[((int) l1) - 58903] & 0xff;
        l10 = b[((int) l1) - 58904] & 0xff;
        l12 = ((l11 = ((l2 != 36000) & (l2 != 36127)) ? 1 : 0) != 0) ? 1 : 2;
        l13 = b[((int) l1) - 58912] & 0xff;
        L8: {
         if (l11 != 0) { break L8; }
         if (l13 != 0) { break L8; }
         Words.put64(b, ((int) l0) - 58912, 1L);
         Words.put32(b, ((int) (l0 + 19L)) - 58912, 0);
         b[((int) (l0 + 18L)) - 58912] = (byte) l8;
         b[((int) (l0 + 17L)) - 58912] = (byte) l9;
         Words.put64(b, ((int) (l0 + 9L)) - 58912, (l10 & 0xffffffffL) << 56L);
         b[((int) (l0 + 8L)) - 58912] = (byte) l12;
         b[((int) (l0 + 23L)) - 58912] = (byte) 0;
         Words.put64(b, ((int) (l0 + 40L)) - 58912, l3);
         Words.put64(b, ((int) (l0 + 32L)) - 58912, l4);
         Words.put64(b, ((int) (l0 + 24L)) - 58912, l5);
         return;
        }
        L9: {
         if (Words.get32(b, State.far((int) (l1 = (((l2 * 3227) >>> 7) & 0xffffffffL) & 504L), 65536)) != l2) { break L9; }
         if (((b[((int) (l1 + 65540L)) - 58912] & 0xff) & 255) != 1) { break L9; }
         l6 = b[((int) (l1 + 65542L)) - 58912] & 0xffL;
         l2 = b[((int) (l1 + 65541L)) - 58912] & 0xff;
         L10: {
          L11: {
           L12: {
            L13: {
             L14: {
              L15: {
               L16: {
                L17: {
                 L18: {
                  L19: {
                   L20: {
                    L21: {
                     L22: {
                      L23: {
                       L24: {
                        L25: {
                         L26: {
                          L27: {
                           L28: {
                            L29: {
                             L30: {
                              L31: {
                               L32: {
                                L33: {
                                 L34: {
                                  L35: {
                                   L36: {
                                    L37: {
                                     L38: {
                                      L39: {
                                       L40: {
                                        L41: {
                                         switch (l10) {
                                         case 1: break L30;
                                         case 2: break L29;
                                         case 3: break L28;
                                         case 4: break L27;
                                         case 5: break L41;
                                         case 6: break L40;
                                         case 7: break L39;
                                         case 8: break L38;
                                         case 9: break L37;
                                         case 10: break L36;
                                         case 11: break L35;
                                         case 12: break L34;
                                         case 13: break L26;
                                         case 14: break L24;
                                         case 15: break L22;
                                         case 16: break L15;
                                         case 17: break L25;
                                         case 18: break L13;
                                         case 19: break L9;
                                         default: break L31;
                                         }
                                        }
                                        L42: {
                                         if (((1 << l2) & 261375) != 0) { break L42; }
                                         if (l2 == 8) { break L14; }
                                         break L12;
                                        }
                                        L43: {
                                         if ((l2 + -5) + Integer.MIN_VALUE < -2147483635) { break L43; }
                                         l11 = 0;
                                         switch (l2) {
                                         case 2: break L19;
                                         case 3: break L17;
                                         case 4: break L6;
                                         default: break L43;
                                         }
                                        }
                                        l11 = 0;
                                        l1 = 432345564227567616L;
                                        switch (l2) {
                                        case 5: break L2;
                                        case 6: break L33;
                                        case 7: break L5;
                                        default: break L9;
                                        }
                                       }
                                       L44: {
                                        if ((l2 + -6) + Integer.MIN_VALUE < -2147483636) { break L44; }
                                        l8 = 3;
                                        l7 = 720575940379279360L;
                                        l14 = l2;
                                        L45: {
                                         switch (l2) {
                                         case 1: break L23;
                                         case 2: case 3: case 4: break L44;
                                         case 5: break L9;
                                         default: break L45;
                                         }
                                        }
                                        l11 = 1;
                                        l10 = (l9 & 1) | 2;
                                        l1 = 648518346341351424L;
                                        break L1;
                                       }
                                       l11 = 1;
                                       if (((1 << l2) & 261948) != 0) { break L9; }
                                       if (l2 != 6) { break L5; }
                                       break L33;
                                      }
                                      L46: {
                                       if ((l2 + -6) + Integer.MIN_VALUE < -2147483636) { break L46; }
                                       l8 = 3;
                                       l14 = 4;
                                       l7 = 720575940379279360L;
                                       L47: {
                                        switch (l2) {
                                        case 1: break L23;
                                        case 2: case 3: case 4: break L46;
                                        case 5: break L9;
                                        default: break L47;
                                        }
                                       }
                                       l10 = 3;
                                       l11 = (l9 & 1) ^ 3;
                                       l1 = 648518346341351424L;
                                       break L1;
                                      }
                                      l11 = 1;
                                      l1 = 576460752303423488L;
                                      if (((1 << l2) & 261980) != 0) { break L9; }
                                      if (l2 != 5) { break L5; }
                                      break L2;
                                     }
                                     l11 = 1;
                                     l8 = 3;
                                     l14 = 5;
                                     l7 = 720575940379279360L;
                                     L48: {
                                      switch (l2) {
                                      case 1: break L23;
                                      case 2: case 3: case 4: case 5: case 6: case 8: case 9: case 10: case 11: case 12: case 13: case 14: case 15: case 16: case 17: break L9;
                                      case 7: break L5;
                                      default: break L48;
                                      }
                                     }
                                     l10 = (l9 & 1) | 2;
                                     l11 = 5;
                                     l1 = 648518346341351424L;
                                     break L1;
                                    }
                                    if (l2 != 1) { break L9; }
                                    l7 = 792633534417207296L;
                                    l14 = l9;
                                    break L23;
                                   }
                                   L49: {
                                    switch (l8) {
                                    case 1: break L20;
                                    case 2: break L18;
                                    case 3: break L10;
                                    default: break L49;
                                    }
                                   }
                                   L50: {
                                    L51: {
                                     L52: {
                                      L53: {
                                       L54: {
                                        switch (l9) {
                                        case 1: break L51;
                                        case 2: case 3: break L53;
                                        case 4: break L52;
                                        case 5: break L50;
                                        default: break L54;
                                        }
                                       }
                                       l11 = 0;
                                       l1 = 432345564227567616L;
                                       switch (l2) {
                                       case 5: break L2;
                                       case 6: break L33;
                                       case 7: break L5;
                                       default: break L9;
                                       }
                                      }
                                      l11 = 0;
                                      l1 = 576460752303423488L;
                                      if (((1 << l2) & 261983) != 0) { break L9; }
                                      if (l2 != 5) { break L5; }
                                      break L2;
                                     }
                                     if (l2 != 5) { break L9; }
                                     break L3;
                                    }
                                    l11 = 0;
                                    if (((1 << l2) & 261951) != 0) { break L9; }
                                    if (l2 != 6) { break L5; }
                                    break L33;
                                   }
                                   if (l2 != 7) { break L9; }
                                   l11 = 0;
                                   break L5;
                                  }
                                  L55: {
                                   L56: {
                                    L57: {
                                     L58: {
                                      switch (l8) {
                                      case 1: break L56;
                                      case 2: break L57;
                                      case 3: break L58;
                                      default: break L55;
                                      }
                                     }
                                     L59: {
                                      if ((l2 + -5) + Integer.MIN_VALUE < -2147483635) { break L59; }
                                      l11 = l9;
                                      switch (l2) {
                                      case 2: break L19;
                                      case 3: break L17;
                                      case 4: break L16;
                                      default: break L59;
                                      }
                                     }
                                     L60: {
                                      L61: {
                                       L62: {
                                        L63: {
                                         L64: {
                                          switch (l9) {
                                          case 1: break L61;
                                          case 2: case 3: break L63;
                                          case 4: break L62;
                                          case 5: break L60;
                                          default: break L64;
                                          }
                                         }
                                         l11 = 0;
                                         l1 = 432345564227567616L;
                                         switch (l2) {
                                         case 5: break L2;
                                         case 6: break L33;
                                         case 7: break L5;
                                         default: break L9;
                                         }
                                        }
                                        l11 = 0;
                                        l1 = 576460752303423488L;
                                        if (((1 << l2) & 261983) != 0) { break L9; }
                                        if (l2 != 5) { break L5; }
                                        break L2;
                                       }
                                       if (l2 == 5) { break L3; }
                                       break L9;
                                      }
                                      l11 = 0;
                                      if (((1 << l2) & 261951) != 0) { break L9; }
                                      if (l2 != 6) { break L5; }
                                      break L33;
                                     }
                                     if (l2 != 7) { break L9; }
                                     l11 = 0;
                                     break L5;
                                    }
                                    L65: {
                                     if ((l2 + -4) + Integer.MIN_VALUE < -2147483634) { break L65; }
                                     l11 = l9;
                                     switch (l2) {
                                     case 2: break L19;
                                     case 3: break L17;
                                     default: break L65;
                                     }
                                    }
                                    L66: {
                                     L67: {
                                      L68: {
                                       L69: {
                                        L70: {
                                         switch (l9) {
                                         case 1: break L67;
                                         case 2: case 3: break L69;
                                         case 4: break L68;
                                         case 5: break L66;
                                         default: break L70;
                                         }
                                        }
                                        l11 = 0;
                                        l1 = 432345564227567616L;
                                        switch (l2) {
                                        case 5: break L2;
                                        case 6: break L33;
                                        case 7: break L5;
                                        default: break L9;
                                        }
                                       }
                                       l11 = 0;
                                       l1 = 576460752303423488L;
                                       if (((1 << l2) & 261983) != 0) { break L9; }
                                       if (l2 != 5) { break L5; }
                                       break L2;
                                      }
                                      if (l2 == 5) { break L3; }
                                      break L9;
                                     }
                                     l11 = 0;
                                     if (((1 << l2) & 261951) != 0) { break L9; }
                                     if (l2 != 6) { break L5; }
                                     break L33;
                                    }
                                    if (l2 != 7) { break L9; }
                                    l11 = 0;
                                    break L5;
                                   }
                                   L71: {
                                    if ((l2 + -5) + Integer.MIN_VALUE < -2147483635) { break L71; }
                                    l11 = l9;
                                    switch (l2) {
                                    case 2: break L19;
                                    case 3: case 4: break L9;
                                    default: break L71;
                                    }
                                   }
                                   L72: {
                                    L73: {
                                     L74: {
                                      L75: {
                                       L76: {
                                        switch (l9) {
                                        case 1: break L73;
                                        case 2: case 3: break L75;
                                        case 4: break L74;
                                        case 5: break L72;
                                        default: break L76;
                                        }
                                       }
                                       l11 = 0;
                                       l1 = 432345564227567616L;
                                       switch (l2) {
                                       case 5: break L2;
                                       case 6: break L33;
                                       case 7: break L5;
                                       default: break L9;
                                       }
                                      }
                                      l11 = 0;
                                      l1 = 576460752303423488L;
                                      if (((1 << l2) & 261983) != 0) { break L9; }
                                      if (l2 != 5) { break L5; }
                                      break L2;
                                     }
                                     if (l2 == 5) { break L3; }
                                     break L9;
                                    }
                                    l11 = 0;
                                    if (((1 << l2) & 261951) != 0) { break L9; }
                                    if (l2 != 6) { break L5; }
                                    break L33;
                                   }
                                   if (l2 != 7) { break L9; }
                                   l11 = 0;
                                   break L5;
                                  }
                                  L77: {
                                   L78: {
                                    L79: {
                                     L80: {
                                      L81: {
                                       switch (l9) {
                                       case 1: break L78;
                                       case 2: case 3: break L80;
                                       case 4: break L79;
                                       case 5: break L77;
                                       default: break L81;
                                       }
                                      }
                                      l11 = 0;
                                      l1 = 432345564227567616L;
                                      switch (l2) {
                                      case 5: break L2;
                                      case 6: break L33;
                                      case 7: break L5;
                                      default: break L9;
                                      }
                                     }
                                     l11 = 0;
                                     l1 = 576460752303423488L;
                                     if (((1 << l2) & 261983) != 0) { break L9; }
                                     if (l2 != 5) { break L5; }
                                     break L2;
                                    }
                                    if (l2 == 5) { break L3; }
                                    break L9;
                                   }
                                   l11 = 0;
                                   if (((1 << l2) & 261951) != 0) { break L9; }
                                   if (l2 != 6) { break L5; }
                                   break L33;
                                  }
                                  if (l2 != 7) { break L9; }
                                  l11 = 0;
                                  break L5;
                                 }
                                 L82: {
                                  L83: {
                                   L84: {
                                    L85: {
                                     switch (l8) {
                                     case 1: break L83;
                                     case 2: break L84;
                                     case 3: break L85;
                                     default: break L82;
                                     }
                                    }
                                    L86: {
                                     if ((l2 + -2) + Integer.MIN_VALUE < -2147483632) { break L86; }
                                     l10 = 1;
                                     l1 = 648518346341351424L;
                                     l8 = 2;
                                     l7 = 720575940379279360L;
                                     l14 = l9;
                                     l11 = l9;
                                     switch (l2) {
                                     case 1: break L23;
                                     default: break L1;
                                     }
                                    }
                                    L87: {
                                     L88: {
                                      L89: {
                                       L90: {
                                        L91: {
                                         switch (l9) {
                                         case 1: break L88;
                                         case 2: case 3: break L90;
                                         case 4: break L89;
                                         case 5: break L87;
                                         default: break L91;
                                         }
                                        }
                                        l11 = 1;
                                        l1 = 432345564227567616L;
                                        switch (l2 + -2) {
                                        case 3: break L2;
                                        case 4: break L33;
                                        case 5: break L5;
                                        default: break L9;
                                        }
                                       }
                                       l11 = 1;
                                       l1 = 576460752303423488L;
                                       if (((1 << l2) & 261980) != 0) { break L9; }
                                       if (l2 != 5) { break L5; }
                                       break L2;
                                      }
                                      if (l2 != 5) { break L9; }
                                      break L4;
                                     }
                                     l11 = 1;
                                     if (((1 << l2) & 261948) != 0) { break L9; }
                                     if (l2 != 6) { break L5; }
                                     break L33;
                                    }
                                    if (l2 != 7) { break L9; }
                                    l11 = 1;
                                    break L5;
                                   }
                                   L92: {
                                    if ((l2 + -2) + Integer.MIN_VALUE < -2147483632) { break L92; }
                                    l1 = 648518346341351424L;
                                    l7 = 720575940379279360L;
                                    l14 = l9;
                                    l8 = l2;
                                    l11 = l9;
                                    l10 = l2;
                                    switch (l2) {
                                    case 1: break L23;
                                    default: break L1;
                                    }
                                   }
                                   L93: {
                                    L94: {
                                     L95: {
                                      L96: {
                                       L97: {
                                        switch (l9) {
                                        case 1: break L94;
                                        case 2: case 3: break L96;
                                        case 4: break L95;
                                        case 5: break L93;
                                        default: break L97;
                                        }
                                       }
                                       l11 = 1;
                                       l1 = 432345564227567616L;
                                       switch (l2 + -2) {
                                       case 3: break L2;
                                       case 4: break L33;
                                       case 5: break L5;
                                       default: break L9;
                                       }
                                      }
                                      l11 = 1;
                                      l1 = 576460752303423488L;
                                      if (((1 << l2) & 261980) != 0) { break L9; }
                                      if (l2 != 5) { break L5; }
                                      break L2;
                                     }
                                     if (l2 == 5) { break L4; }
                                     break L9;
                                    }
                                    l11 = 1;
                                    if (((1 << l2) & 261948) != 0) { break L9; }
                                    if (l2 != 6) { break L5; }
                                    break L33;
                                   }
                                   if (l2 != 7) { break L9; }
                                   l11 = 1;
                                   break L5;
                                  }
                                  L98: {
                                   if ((l2 + -2) + Integer.MIN_VALUE < -2147483632) { break L98; }
                                   l8 = 0;
                                   l7 = 720575940379279360L;
                                   l14 = l9;
                                   switch (l2) {
                                   case 1: break L23;
                                   default: break L9;
                                   }
                                  }
                                  L99: {
                                   L100: {
                                    L101: {
                                     L102: {
                                      L103: {
                                       switch (l9) {
                                       case 1: break L100;
                                       case 2: case 3: break L102;
                                       case 4: break L101;
                                       case 5: break L99;
                                       default: break L103;
                                       }
                                      }
                                      l11 = 1;
                                      l1 = 432345564227567616L;
                                      switch (l2 + -2) {
                                      case 3: break L2;
                                      case 4: break L33;
                                      case 5: break L5;
                                      default: break L9;
                                      }
                                     }
                                     l11 = 1;
                                     l1 = 576460752303423488L;
                                     if (((1 << l2) & 261980) != 0) { break L9; }
                                     if (l2 != 5) { break L5; }
                                     break L2;
                                    }
                                    if (l2 == 5) { break L4; }
                                    break L9;
                                   }
                                   l11 = 1;
                                   if (((1 << l2) & 261948) != 0) { break L9; }
                                   if (l2 == 6) { break L33; }
                                   break L5;
                                  }
                                  if (l2 != 7) { break L9; }
                                  l11 = 1;
                                  break L5;
                                 }
                                 L104: {
                                  L105: {
                                   L106: {
                                    L107: {
                                     switch (l9) {
                                     case 1: break L104;
                                     case 2: case 3: break L106;
                                     case 4: break L105;
                                     case 5: break L32;
                                     default: break L107;
                                     }
                                    }
                                    l11 = 1;
                                    l1 = 432345564227567616L;
                                    switch (l2) {
                                    case 5: break L2;
                                    case 6: break L33;
                                    case 7: break L5;
                                    default: break L9;
                                    }
                                   }
                                   l11 = 1;
                                   l1 = 576460752303423488L;
                                   if (((1 << l2) & 261983) != 0) { break L9; }
                                   if (l2 != 5) { break L5; }
                                   break L2;
                                  }
                                  if (l2 == 5) { break L4; }
                                  break L9;
                                 }
                                 l11 = 1;
                                 if (((1 << l2) & 261951) != 0) { break L9; }
                                 if (l2 != 6) { break L5; }
                                }
                                l5 = ((l3 + l5) + l4) * 100000000L;
                                l4 = 0L;
                                l10 = 0;
                                l1 = 504403158265495552L;
                                l3 = 0L;
                                break L1;
                               }
                               if (l2 != 7) { break L9; }
                               l11 = 1;
                               break L5;
                              }
                              l7 = 360287970189639680L;
                              l14 = 0;
                              l1 = 72057594037927936L;
                              l8 = 0;
                              l11 = 0;
                              l10 = 0;
                              switch (l2) {
                              case 1: break L23;
                              case 2: case 3: case 4: case 5: case 6: case 7: case 8: case 9: case 10: case 12: case 13: case 14: case 15: case 16: case 17: break L9;
                              case 11: break L1;
                              default: break L21;
                              }
                             }
                             if (l2 != 12) { break L9; }
                             l11 = 0;
                             l1 = 144115188075855872L;
                             break L11;
                            }
                            if (l2 != 13) { break L9; }
                            l11 = 0;
                            l1 = 216172782113783808L;
                            break L11;
                           }
                           if ((l2 + -2) + Integer.MIN_VALUE < -2147483632) { break L9; }
                           l14 = 0;
                           l7 = 360287970189639680L;
                           l8 = 0;
                           switch (l2) {
                           case 1: break L23;
                           default: break L21;
                           }
                          }
                          if (l2 != 7) { break L9; }
                          l11 = 1;
                          break L5;
                         }
                         l7 = 1152921504606846976L;
                         l14 = 0;
                         l1 = 1369094286720630784L;
                         l8 = 0;
                         l11 = 0;
                         l10 = 0;
                         L108: {
                          switch (l2) {
                          case 1: break L23;
                          case 2: case 3: case 4: case 5: case 6: case 7: case 8: case 9: case 11: case 12: case 13: case 14: case 15: case 16: case 17: break L9;
                          case 10: break L1;
                          default: break L108;
                          }
                         }
                         l11 = l9 & 1;
                         l1 = 1008806316530991104L;
                         break L11;
                        }
                        l7 = 1297036692682702848L;
                        l14 = 0;
                        l1 = 1369094286720630784L;
                        if (((1 << l2) & 261117) != 0) { break L9; }
                        l8 = 0;
                        if (l2 == 1) { break L23; }
                        l11 = 0;
                        break L11;
                       }
                       if (l2 != 1) { break L9; }
                       l14 = l9 & 1;
                       l8 = 0;
                       l7 = 1080863910568919040L;
                      }
                      l1 = l7;
                      l11 = l14;
                      l10 = l8;
                      l3 = l6;
                      break L1;
                     }
                     if ((l9 & 1) == 0) { break L13; }
                     if (((1 << l2) & 261375) != 0) { break L9; }
                     if (l2 == 8) { break L14; }
                     break L12;
                    }
                    l11 = 0;
                    l1 = 288230376151711744L;
                    break L11;
                   }
                   l11 = l9;
                   if (l2 != 2) { break L9; }
                  }
                  l4 = (l3 * 10L) + l4;
                  l3 = 0L;
                  l10 = 1;
                  l1 = 864691128455135232L;
                  break L1;
                 }
                 l11 = l9;
                 if (l2 != 3) { break L9; }
                }
                l4 = (l3 * 100L) + l4;
                l3 = 0L;
                l10 = 2;
                l1 = 864691128455135232L;
                break L1;
               }
               l11 = (l9 == 3) ? 5 : l9;
               break L6;
              }
              if (l2 != 8) { break L9; }
             }
             l5 = (l3 * 10L) + l5;
             l3 = 0L;
             l11 = 0;
             l1 = 1224979098644774912L;
             break L11;
            }
            if (l2 != 9) { break L9; }
           }
           l5 = l3 + l5;
           l3 = 0L;
           l11 = 0;
           l1 = 1369094286720630784L;
          }
          l10 = 0;
          break L1;
         }
         l11 = l9;
         if (l2 == 4) { break L6; }
        }
        Words.put64(b, ((int) l0) - 58872, 0L);
        Words.put64(b, ((int) l0) - 58880, 0L);
        Words.put64(b, ((int) l0) - 58888, 0L);
        Words.put64(b, ((int) l0) - 58896, 0L);
        Words.put64(b, ((int) l0) - 58904, 0L);
        Words.put64(b, ((int) l0) - 58912, 0L);
        return;
       }
       throw State.trap();
      }
      l4 = (l3 * 1000L) + l4;
      l3 = 0L;
      l10 = 3;
      l1 = 864691128455135232L;
      break L1;
     }
     l5 = ((l3 + l5) + l4) * 100L;
     l4 = 0L;
     l10 = 0;
     l1 = 936748722493063168L;
     l3 = 0L;
     break L1;
    }
    l11 = 1;
    l1 = 576460752303423488L;
    break L2;
   }
   l11 = 0;
   l1 = 576460752303423488L;
  }
  l5 = ((l3 + l4) * 10000L) + l5;
  l4 = 0L;
  l10 = 0;
  l3 = 0L;
 }
 Words.put64(b, ((int) l0) - 58912, 1L);
 Words.put32(b, ((int) (l0 + 19L)) - 58912, 0);
 b[((int) (l0 + 18L)) - 58912] = (byte) l10;
 b[((int) (l0 + 17L)) - 58912] = (byte) l11;
 Words.put64(b, ((int) (l0 + 9L)) - 58912, l1 & 2233785415175766016L);
 b[((int) (l0 + 8L)) - 58912] = (byte) (l13 != 0 ? l13 : l12);
 b[((int) (l0 + 23L)) - 58912] = (byte) 0;
 Words.put64(b, ((int) (l0 + 40L)) - 58912, l3);
 Words.put64(b, ((int) (l0 + 32L)) - 58912, l4);
 Words.put64(b, ((int) (l0 + 24L)) - 58912, l5);
}

static void f21(State m, long l0, long l1, int l2) {
 final byte[] b = m.bytes;
 long l3 = 0;
 long l4 = 0;
 long l5 = 0;
 long l6 = 0;
 long l7 = 0;
 int l8 = 0;
 int l9 = 0;
 int l10 = 0;
 int l11 = 0;
 int l12 = 0;
 int l13 = 0;
 int l14 = 0;
 int l15 = 0;
 int l16 = 0;
 int l17 = 0;
 int l18 = 0;
 int l19 = 0;
 int l20 = 0;
 L1: {
  L2: {
   L3: {
    L4: {
     L5: {
      L6: {
       L7: {
        L8: {
         L9: {
          L10: {
           L11: {
            L12: {
             L13: {
              L14: {
               L15: {
                L16: {
                 L17: {
                  if ((l3 = m.g0 - 16L) < 16L) { break L17; }
                  l4 = ((l8 = b[((int) l1) - 58908] & 0xff) & 0xffffffffL) & 255L;
                  l9 = b[((int) l1) - 58911] & 0xff;
                  l5 = Words.get64(b, ((int) l1) - 58880);
                  l6 = Words.get64(b, ((int) l1) - 58888);
                  l7 = Words.get64(b, ((int) l1) - 58896);
                  l10 = b[((int) l1) - 58902] & 0xff;
                  l11 = b[((int) l1) - 58903] & 0xff;
                  l12 = b[((int) l1) - 58904] & 0xff;
                  l13 = b[((int) l1) - 58910] & 0xff;
                  l14 = b[((int) l1) - 58912] & 0xff;
                  L18: {
                   L19: {
                    L20: {
                     L21: {
                      L22: {
                       L23: {
                        L24: {
                         L25: {
                          L26: {
                           L27: {
                            L28: {
                             L29: {
                              switch (l15 = b[((int) l1) - 58909] & 0xff) {
                              case 1: break L28;
                              case 2: break L27;
                              case 3: break L26;
                              case 4: break L25;
                              case 5: break L24;
                              case 6: break L23;
                              case 7: break L22;
                              case 8: break L21;
                              case 9: break L20;
                              case 10: break L19;
                              case 11: break L9;
                              default: break L29;
                              }
                             }
                             L30: {
                              L31: {
                               if (l2 == 8855) { break L31; }
                               if (l2 == 9447) { break L31; }
                               if (l2 != 20154) { break L30; }
                               l16 = 1;
                               if ((l13 & 1) == 0) { break L30; }
                               l17 = l14 & 1;
                               l1 = 0L;
                               l4 = 1024L;
                               l18 = l9;
                               l8 = 1;
                               break L12;
                              }
                              l16 = 1;
                              if ((l14 & 1) == 0) { break L30; }
                              l8 = l13 & 1;
                              l4 = 0L;
                              l17 = 0;
                              l18 = l9;
                              l1 = 0L;
                              break L12;
                             }
                             l1 = 0L;
                             l18 = 0;
                             if ((l9 & 255) != 0) { break L13; }
                             L32: {
                              L33: {
                               L34: {
                                L35: {
                                 L36: {
                                  if (l2 > 36126) { break L36; }
                                  if (l2 == 40) { break L33; }
                                  if (l2 != 36000) { break L13; }
                                  break L35;
                                 }
                                 if (l2 == 65288) { break L34; }
                                 if (l2 != 36127) { break L13; }
                                }
                                l16 = 1;
                                l8 = l13 & 1;
                                l17 = l14 & 1;
                                l18 = 2;
                                l4 = 0L;
                                break L12;
                               }
                               l16 = 1;
                               l8 = l13 & 1;
                               l17 = l14 & 1;
                               break L32;
                              }
                              l16 = 1;
                              l8 = l13 & 1;
                              l17 = l14 & 1;
                              l1 = 65536L;
                             }
                             l4 = 256L;
                             break L12;
                            }
                            l1 = 0L;
                            L37: {
                             L38: {
                              L39: {
                               if (l2 == 36000) { break L39; }
                               l17 = 0;
                               l18 = 0;
                               l19 = 0;
                               l4 = 0L;
                               l20 = 0;
                               l16 = 0;
                               if (l2 != 36127) { break L37; }
                               l16 = 1;
                               l19 = l13 & 1;
                               l17 = l14 & 1;
                               l1 = 16777216L;
                               break L38;
                              }
                              l16 = 1;
                              l19 = l13 & 1;
                              l17 = l14 & 1;
                             }
                             l4 = 512L;
                             l18 = l9;
                             l20 = l8;
                            }
                            l1 = ((((l20 & 0xffffffffL) & 255L) << 16L) | (l4 | (l19 & 0xffffffffL))) | l1;
                            break L11;
                           }
                           L40: {
                            L41: {
                             if (((b[((int) l1) - 58907] & 0xff) & 255) != 1) { break L41; }
                             if (l2 == 25968) { break L40; }
                             break L8;
                            }
                            if (l2 != 25976) { break L8; }
                           }
                           l1 = ((l4 << 16L) | ((l13 & 0xffffffffL) & 1L)) | 768L;
                           l17 = l14 & 1;
                           l18 = l9;
                           break L10;
                          }
                          L42: {
                           L43: {
                            if ((l8 & 255) != 0) { break L43; }
                            if (l2 == 65289) { break L42; }
                            break L8;
                           }
                           if (l2 != 41) { break L8; }
                          }
                          l17 = l14 & 1;
                          l1 = (l13 & 0xffffffffL) & 1L;
                          l18 = 2;
                          break L10;
                         }
                         if (l2 != 27665) { break L8; }
                         l17 = l14 & 1;
                         l1 = ((l13 & 0xffffffffL) & 1L) | 1280L;
                         l18 = l9;
                         break L10;
                        }
                        L44: {
                         if (l2 == 24163) { break L44; }
                         if (l2 != 24065) { break L8; }
                        }
                        l17 = l14 & 1;
                        l1 = ((l13 & 0xffffffffL) & 1L) | 1536L;
                        l18 = l9;
                        break L10;
                       }
                       l17 = 0;
                       l1 = 0L;
                       L45: {
                        L46: {
                         L47: {
                          if (l2 > 36126) { break L47; }
                          l18 = l9;
                          switch (l2 + -40) {
                          case 0: break L46;
                          case 1: case 2: case 3: case 4: case 5: case 6: case 7: case 8: case 9: case 10: case 11: case 12: case 13: case 14: case 15: case 16: case 17: break L9;
                          case 18: break L10;
                          default: break L18;
                          }
                         }
                         l18 = l9;
                         L48: {
                          switch (l2 + -65288) {
                          case 0: break L48;
                          case 1: case 2: case 3: case 4: case 5: case 6: case 7: case 8: case 9: case 10: case 11: case 12: case 13: case 14: case 15: case 16: case 17: break L9;
                          case 18: break L10;
                          default: break L45;
                          }
                         }
                         l17 = l14 & 1;
                         l1 = ((l13 & 0xffffffffL) & 1L) | 1792L;
                         l18 = l9;
                         break L10;
                        }
                        l17 = l14 & 1;
                        l1 = ((l13 & 0xffffffffL) & 1L) | 67328L;
                        l18 = l9;
                        break L10;
                       }
                       if (l2 != 36127) { break L9; }
                       break L14;
                      }
                      L49: {
                       if (l2 != 22823) { break L49; }
                       l16 = 1;
                       l17 = l14 & 1;
                       l1 = ((l13 & 0xffffffffL) & 1L) | 2048L;
                       l18 = l9;
                       break L15;
                      }
                      l1 = 0L;
                      l17 = 0;
                      if ((l9 & 255) != 0) { break L16; }
                      L50: {
                       L51: {
                        if (l2 == 36000) { break L51; }
                        if (l2 != 36127) { break L16; }
                        l1 = 16777728L;
                        break L50;
                       }
                       l1 = 512L;
                      }
                      l16 = 1;
                      l18 = 0;
                      break L15;
                     }
                     L52: {
                      if (l2 == 23531) { break L52; }
                      if (l2 != 20889) { break L8; }
                     }
                     l1 = ((l4 << 16L) | ((l13 & 0xffffffffL) & 1L)) | 2304L;
                     l17 = l14 & 1;
                     l18 = l9;
                     break L10;
                    }
                    L53: {
                     L54: {
                      if ((l8 & 255) != 0) { break L54; }
                      if (l2 == 65289) { break L53; }
                      break L8;
                     }
                     if (l2 != 41) { break L8; }
                    }
                    l17 = l14 & 1;
                    l1 = ((l13 & 0xffffffffL) & 1L) | 2560L;
                    l18 = l9;
                    break L10;
                   }
                   l17 = 0;
                   l1 = 0L;
                   L55: {
                    if (l2 != 58) { break L55; }
                    l18 = l9;
                    break L10;
                   }
                   L56: {
                    if (l2 != 65306) { break L56; }
                    l18 = l9;
                    break L10;
                   }
                   if ((l9 & 255) != 0) { break L9; }
                   l18 = 2;
                   L57: {
                    L58: {
                     L59: {
                      if (l2 > 36126) { break L59; }
                      if (l2 == 40) { break L58; }
                      if (l2 == 36000) { break L10; }
                      break L9;
                     }
                     if (l2 == 36127) { break L10; }
                     if (l2 != 65288) { break L9; }
                     l18 = 0;
                     l1 = 256L;
                     break L57;
                    }
                    l18 = 0;
                    l1 = 65792L;
                   }
                   l17 = 0;
                   break L10;
                  }
                  if (l2 == 36000) { break L14; }
                  break L9;
                 }
                 throw State.trap();
                }
                l16 = 0;
                l18 = 0;
                l8 = 0;
               }
               l1 = (((l8 & 0xffffffffL) & 255L) << 16L) | l1;
               break L11;
              }
              l17 = 0;
              l18 = ((l8 = l9 & 255) != 0) ? 0 : 2;
              l16 = (l8 == 0) ? 1 : 0;
              l1 = 0L;
              break L11;
             }
             l16 = 0;
             l17 = 0;
             l8 = 0;
             l4 = 0L;
            }
            l1 = (l4 | (l8 & 0xffffffffL)) | l1;
           }
           if (l16 != 0) { break L10; }
           if (((1 << l15) & 190) == 0) { break L9; }
           break L8;
          }
          b[((int) l3) - 58900] = (byte) 0;
          Words.put32(b, ((int) l3) - 58904, 0);
          l1 = ((((l18 & 0xffffffffL) & 255L) << 8L) | (l1 << 16L)) | (l17 & 0xffffffffL);
          l4 = 1L;
          l2 = l11;
          break L1;
         }
         if (Words.get32(b, State.far((int) (l1 = (((l2 * 3227) >>> 7) & 0xffffffffL) & 504L), 65536)) != l2) { break L8; }
         if (((b[((int) (l1 + 65540L)) - 58912] & 0xff) & 255) != 1) { break L8; }
         l4 = b[((int) (l1 + 65542L)) - 58912] & 0xffL;
         l8 = b[((int) (l1 + 65541L)) - 58912] & 0xff;
         L60: {
          L61: {
           L62: {
            L63: {
             L64: {
              L65: {
               L66: {
                L67: {
                 L68: {
                  L69: {
                   L70: {
                    L71: {
                     L72: {
                      L73: {
                       L74: {
                        L75: {
                         L76: {
                          L77: {
                           L78: {
                            L79: {
                             L80: {
                              L81: {
                               L82: {
                                L83: {
                                 L84: {
                                  L85: {
                                   L86: {
                                    L87: {
                                     L88: {
                                      L89: {
                                       L90: {
                                        L91: {
                                         switch (l12) {
                                         case 1: break L80;
                                         case 2: break L79;
                                         case 3: break L78;
                                         case 4: break L77;
                                         case 5: break L91;
                                         case 6: break L90;
                                         case 7: break L89;
                                         case 8: break L88;
                                         case 9: break L87;
                                         case 10: break L86;
                                         case 11: break L85;
                                         case 12: break L84;
                                         case 13: break L76;
                                         case 14: break L74;
                                         case 15: break L72;
                                         case 16: break L65;
                                         case 17: break L75;
                                         case 18: break L63;
                                         case 19: break L8;
                                         default: break L81;
                                         }
                                        }
                                        L92: {
                                         if (((1 << l8) & 261375) != 0) { break L92; }
                                         if (l8 == 8) { break L64; }
                                         break L62;
                                        }
                                        L93: {
                                         if ((l8 + -5) + Integer.MIN_VALUE < -2147483635) { break L93; }
                                         l2 = 0;
                                         switch (l8) {
                                         case 2: break L69;
                                         case 3: break L67;
                                         case 4: break L7;
                                         default: break L93;
                                         }
                                        }
                                        l2 = 0;
                                        l12 = 6;
                                        switch (l8) {
                                        case 5: break L3;
                                        case 6: break L83;
                                        case 7: break L6;
                                        default: break L8;
                                        }
                                       }
                                       L94: {
                                        if ((l8 + -6) + Integer.MIN_VALUE < -2147483636) { break L94; }
                                        l15 = 3;
                                        l18 = 10;
                                        l17 = l8;
                                        L95: {
                                         switch (l8) {
                                         case 1: break L73;
                                         case 2: case 3: case 4: break L94;
                                         case 5: break L8;
                                         default: break L95;
                                         }
                                        }
                                        l2 = 1;
                                        l10 = (l11 & 1) | 2;
                                        l12 = 9;
                                        break L2;
                                       }
                                       l2 = 1;
                                       if (((1 << l8) & 261948) != 0) { break L8; }
                                       if (l8 != 6) { break L6; }
                                       break L83;
                                      }
                                      L96: {
                                       if ((l8 + -6) + Integer.MIN_VALUE < -2147483636) { break L96; }
                                       l15 = 3;
                                       l17 = 4;
                                       l18 = 10;
                                       L97: {
                                        switch (l8) {
                                        case 1: break L73;
                                        case 2: case 3: case 4: break L96;
                                        case 5: break L8;
                                        default: break L97;
                                        }
                                       }
                                       l10 = 3;
                                       l2 = (l11 & 1) ^ 3;
                                       l12 = 9;
                                       break L2;
                                      }
                                      l2 = 1;
                                      l12 = 8;
                                      if (((1 << l8) & 261980) != 0) { break L8; }
                                      if (l8 != 5) { break L6; }
                                      break L3;
                                     }
                                     l2 = 1;
                                     l15 = 3;
                                     l17 = 5;
                                     l18 = 10;
                                     L98: {
                                      switch (l8) {
                                      case 1: break L73;
                                      case 2: case 3: case 4: case 5: case 6: case 8: case 9: case 10: case 11: case 12: case 13: case 14: case 15: case 16: case 17: break L8;
                                      case 7: break L6;
                                      default: break L98;
                                      }
                                     }
                                     l10 = (l11 & 1) | 2;
                                     l2 = 5;
                                     l12 = 9;
                                     break L2;
                                    }
                                    if (l8 != 1) { break L8; }
                                    l18 = 11;
                                    l17 = l11;
                                    l15 = l10;
                                    break L73;
                                   }
                                   L99: {
                                    switch (l10) {
                                    case 1: break L70;
                                    case 2: break L68;
                                    case 3: break L60;
                                    default: break L99;
                                    }
                                   }
                                   L100: {
                                    L101: {
                                     L102: {
                                      L103: {
                                       L104: {
                                        switch (l11) {
                                        case 1: break L101;
                                        case 2: case 3: break L103;
                                        case 4: break L102;
                                        case 5: break L100;
                                        default: break L104;
                                        }
                                       }
                                       l2 = 0;
                                       l12 = 6;
                                       switch (l8) {
                                       case 5: break L3;
                                       case 6: break L83;
                                       case 7: break L6;
                                       default: break L8;
                                       }
                                      }
                                      l2 = 0;
                                      l12 = 8;
                                      if (((1 << l8) & 261983) != 0) { break L8; }
                                      if (l8 != 5) { break L6; }
                                      break L3;
                                     }
                                     if (l8 != 5) { break L8; }
                                     break L4;
                                    }
                                    l2 = 0;
                                    if (((1 << l8) & 261951) != 0) { break L8; }
                                    if (l8 != 6) { break L6; }
                                    break L83;
                                   }
                                   if (l8 != 7) { break L8; }
                                   l2 = 0;
                                   break L6;
                                  }
                                  L105: {
                                   L106: {
                                    L107: {
                                     L108: {
                                      switch (l10) {
                                      case 1: break L106;
                                      case 2: break L107;
                                      case 3: break L108;
                                      default: break L105;
                                      }
                                     }
                                     L109: {
                                      if ((l8 + -5) + Integer.MIN_VALUE < -2147483635) { break L109; }
                                      l2 = l11;
                                      switch (l8) {
                                      case 2: break L69;
                                      case 3: break L67;
                                      case 4: break L66;
                                      default: break L109;
                                      }
                                     }
                                     L110: {
                                      L111: {
                                       L112: {
                                        L113: {
                                         L114: {
                                          switch (l11) {
                                          case 1: break L111;
                                          case 2: case 3: break L113;
                                          case 4: break L112;
                                          case 5: break L110;
                                          default: break L114;
                                          }
                                         }
                                         l2 = 0;
                                         l12 = 6;
                                         switch (l8) {
                                         case 5: break L3;
                                         case 6: break L83;
                                         case 7: break L6;
                                         default: break L8;
                                         }
                                        }
                                        l2 = 0;
                                        l12 = 8;
                                        if (((1 << l8) & 261983) != 0) { break L8; }
                                        if (l8 != 5) { break L6; }
                                        break L3;
                                       }
                                       if (l8 == 5) { break L4; }
                                       break L8;
                                      }
                                      l2 = 0;
                                      if (((1 << l8) & 261951) != 0) { break L8; }
                                      if (l8 != 6) { break L6; }
                                      break L83;
                                     }
                                     if (l8 != 7) { break L8; }
                                     l2 = 0;
                                     break L6;
                                    }
                                    L115: {
                                     if ((l8 + -4) + Integer.MIN_VALUE < -2147483634) { break L115; }
                                     l2 = l11;
                                     switch (l8) {
                                     case 2: break L69;
                                     case 3: break L67;
                                     default: break L115;
                                     }
                                    }
                                    L116: {
                                     L117: {
                                      L118: {
                                       L119: {
                                        L120: {
                                         switch (l11) {
                                         case 1: break L117;
                                         case 2: case 3: break L119;
                                         case 4: break L118;
                                         case 5: break L116;
                                         default: break L120;
                                         }
                                        }
                                        l2 = 0;
                                        l12 = 6;
                                        switch (l8) {
                                        case 5: break L3;
                                        case 6: break L83;
                                        case 7: break L6;
                                        default: break L8;
                                        }
                                       }
                                       l2 = 0;
                                       l12 = 8;
                                       if (((1 << l8) & 261983) != 0) { break L8; }
                                       if (l8 != 5) { break L6; }
                                       break L3;
                                      }
                                      if (l8 == 5) { break L4; }
                                      break L8;
                                     }
                                     l2 = 0;
                                     if (((1 << l8) & 261951) != 0) { break L8; }
                                     if (l8 != 6) { break L6; }
                                     break L83;
                                    }
                                    if (l8 != 7) { break L8; }
                                    l2 = 0;
                                    break L6;
                                   }
                                   L121: {
                                    if ((l8 + -5) + Integer.MIN_VALUE < -2147483635) { break L121; }
                                    l2 = l11;
                                    switch (l8) {
                                    case 2: break L69;
                                    case 3: case 4: break L8;
                                    default: break L121;
                                    }
                                   }
                                   L122: {
                                    L123: {
                                     L124: {
                                      L125: {
                                       L126: {
                                        switch (l11) {
                                        case 1: break L123;
                                        case 2: case 3: break L125;
                                        case 4: break L124;
                                        case 5: break L122;
                                        default: break L126;
                                        }
                                       }
                                       l2 = 0;
                                       l12 = 6;
                                       switch (l8) {
                                       case 5: break L3;
                                       case 6: break L83;
                                       case 7: break L6;
                                       default: break L8;
                                       }
                                      }
                                      l2 = 0;
                                      l12 = 8;
                                      if (((1 << l8) & 261983) != 0) { break L8; }
                                      if (l8 != 5) { break L6; }
                                      break L3;
                                     }
                                     if (l8 == 5) { break L4; }
                                     break L8;
                                    }
                                    l2 = 0;
                                    if (((1 << l8) & 261951) != 0) { break L8; }
                                    if (l8 != 6) { break L6; }
                                    break L83;
                                   }
                                   if (l8 != 7) { break L8; }
                                   l2 = 0;
                                   break L6;
                                  }
                                  L127: {
                                   L128: {
                                    L129: {
                                     L130: {
                                      L131: {
                                       switch (l11) {
                                       case 1: break L128;
                                       case 2: case 3: break L130;
                                       case 4: break L129;
                                       case 5: break L127;
                                       default: break L131;
                                       }
                                      }
                                      l2 = 0;
                                      l12 = 6;
                                      switch (l8) {
                                      case 5: break L3;
                                      case 6: break L83;
                                      case 7: break L6;
                                      default: break L8;
                                      }
                                     }
                                     l2 = 0;
                                     l12 = 8;
                                     if (((1 << l8) & 261983) != 0) { break L8; }
                                     if (l8 != 5) { break L6; }
                                     break L3;
                                    }
                                    if (l8 == 5) { break L4; }
                                    break L8;
                                   }
                                   l2 = 0;
                                   if (((1 << l8) & 261951) != 0) { break L8; }
                                   if (l8 != 6) { break L6; }
                                   break L83;
                                  }
                                  if (l8 != 7) { break L8; }
                                  l2 = 0;
                                  break L6;
                                 }
                                 L132: {
                                  L133: {
                                   L134: {
                                    L135: {
                                     switch (l10) {
                                     case 1: break L133;
                                     case 2: break L134;
                                     case 3: break L135;
                                     default: break L132;
                                     }
                                    }
                                    L136: {
                                     if ((l8 + -2) + Integer.MIN_VALUE < -2147483632) { break L136; }
                                     l10 = 1;
                                     l12 = 9;
                                     l15 = 2;
                                     l18 = 10;
                                     l17 = l11;
                                     l2 = l11;
                                     switch (l8) {
                                     case 1: break L73;
                                     default: break L2;
                                     }
                                    }
                                    L137: {
                                     L138: {
                                      L139: {
                                       L140: {
                                        L141: {
                                         switch (l11) {
                                         case 1: break L138;
                                         case 2: case 3: break L140;
                                         case 4: break L139;
                                         case 5: break L137;
                                         default: break L141;
                                         }
                                        }
                                        l2 = 1;
                                        l12 = 6;
                                        switch (l8 + -2) {
                                        case 3: break L3;
                                        case 4: break L83;
                                        case 5: break L6;
                                        default: break L8;
                                        }
                                       }
                                       l2 = 1;
                                       l12 = 8;
                                       if (((1 << l8) & 261980) != 0) { break L8; }
                                       if (l8 != 5) { break L6; }
                                       break L3;
                                      }
                                      if (l8 != 5) { break L8; }
                                      break L5;
                                     }
                                     l2 = 1;
                                     if (((1 << l8) & 261948) != 0) { break L8; }
                                     if (l8 != 6) { break L6; }
                                     break L83;
                                    }
                                    if (l8 != 7) { break L8; }
                                    l2 = 1;
                                    break L6;
                                   }
                                   L142: {
                                    if ((l8 + -2) + Integer.MIN_VALUE < -2147483632) { break L142; }
                                    l12 = 9;
                                    l18 = 10;
                                    l17 = l11;
                                    l15 = l8;
                                    l2 = l11;
                                    l10 = l8;
                                    switch (l8) {
                                    case 1: break L73;
                                    default: break L2;
                                    }
                                   }
                                   L143: {
                                    L144: {
                                     L145: {
                                      L146: {
                                       L147: {
                                        switch (l11) {
                                        case 1: break L144;
                                        case 2: case 3: break L146;
                                        case 4: break L145;
                                        case 5: break L143;
                                        default: break L147;
                                        }
                                       }
                                       l2 = 1;
                                       l12 = 6;
                                       switch (l8 + -2) {
                                       case 3: break L3;
                                       case 4: break L83;
                                       case 5: break L6;
                                       default: break L8;
                                       }
                                      }
                                      l2 = 1;
                                      l12 = 8;
                                      if (((1 << l8) & 261980) != 0) { break L8; }
                                      if (l8 != 5) { break L6; }
                                      break L3;
                                     }
                                     if (l8 == 5) { break L5; }
                                     break L8;
                                    }
                                    l2 = 1;
                                    if (((1 << l8) & 261948) != 0) { break L8; }
                                    if (l8 != 6) { break L6; }
                                    break L83;
                                   }
                                   if (l8 != 7) { break L8; }
                                   l2 = 1;
                                   break L6;
                                  }
                                  L148: {
                                   if ((l8 + -2) + Integer.MIN_VALUE < -2147483632) { break L148; }
                                   l15 = 0;
                                   l18 = 10;
                                   l17 = l11;
                                   switch (l8) {
                                   case 1: break L73;
                                   default: break L8;
                                   }
                                  }
                                  L149: {
                                   L150: {
                                    L151: {
                                     L152: {
                                      L153: {
                                       switch (l11) {
                                       case 1: break L150;
                                       case 2: case 3: break L152;
                                       case 4: break L151;
                                       case 5: break L149;
                                       default: break L153;
                                       }
                                      }
                                      l2 = 1;
                                      l12 = 6;
                                      switch (l8 + -2) {
                                      case 3: break L3;
                                      case 4: break L83;
                                      case 5: break L6;
                                      default: break L8;
                                      }
                                     }
                                     l2 = 1;
                                     l12 = 8;
                                     if (((1 << l8) & 261980) != 0) { break L8; }
                                     if (l8 != 5) { break L6; }
                                     break L3;
                                    }
                                    if (l8 == 5) { break L5; }
                                    break L8;
                                   }
                                   l2 = 1;
                                   if (((1 << l8) & 261948) != 0) { break L8; }
                                   if (l8 == 6) { break L83; }
                                   break L6;
                                  }
                                  if (l8 != 7) { break L8; }
                                  l2 = 1;
                                  break L6;
                                 }
                                 L154: {
                                  L155: {
                                   L156: {
                                    L157: {
                                     switch (l11) {
                                     case 1: break L154;
                                     case 2: case 3: break L156;
                                     case 4: break L155;
                                     case 5: break L82;
                                     default: break L157;
                                     }
                                    }
                                    l2 = 1;
                                    l12 = 6;
                                    switch (l8) {
                                    case 5: break L3;
                                    case 6: break L83;
                                    case 7: break L6;
                                    default: break L8;
                                    }
                                   }
                                   l2 = 1;
                                   l12 = 8;
                                   if (((1 << l8) & 261983) != 0) { break L8; }
                                   if (l8 != 5) { break L6; }
                                   break L3;
                                  }
                                  if (l8 == 5) { break L5; }
                                  break L8;
                                 }
                                 l2 = 1;
                                 if (((1 << l8) & 261951) != 0) { break L8; }
                                 if (l8 != 6) { break L6; }
                                }
                                l7 = ((l5 + l7) + l6) * 100000000L;
                                l6 = 0L;
                                l10 = 0;
                                l12 = 7;
                                l5 = 0L;
                                break L2;
                               }
                               if (l8 != 7) { break L8; }
                               l2 = 1;
                               break L6;
                              }
                              l18 = 5;
                              l17 = 0;
                              l12 = 1;
                              l15 = 0;
                              l2 = 0;
                              l10 = 0;
                              switch (l8) {
                              case 1: break L73;
                              case 2: case 3: case 4: case 5: case 6: case 7: case 8: case 9: case 10: case 12: case 13: case 14: case 15: case 16: case 17: break L8;
                              case 11: break L2;
                              default: break L71;
                              }
                             }
                             if (l8 != 12) { break L8; }
                             l2 = 0;
                             l12 = 2;
                             break L61;
                            }
                            if (l8 != 13) { break L8; }
                            l2 = 0;
                            l12 = 3;
                            break L61;
                           }
                           if ((l8 + -2) + Integer.MIN_VALUE < -2147483632) { break L8; }
                           l17 = 0;
                           l18 = 5;
                           l15 = 0;
                           switch (l8) {
                           case 1: break L73;
                           default: break L71;
                           }
                          }
                          if (l8 != 7) { break L8; }
                          l2 = 1;
                          break L6;
                         }
                         l18 = 16;
                         l17 = 0;
                         l12 = 19;
                         l15 = 0;
                         l2 = 0;
                         l10 = 0;
                         L158: {
                          switch (l8) {
                          case 1: break L73;
                          case 2: case 3: case 4: case 5: case 6: case 7: case 8: case 9: case 11: case 12: case 13: case 14: case 15: case 16: case 17: break L8;
                          case 10: break L2;
                          default: break L158;
                          }
                         }
                         l2 = l11 & 1;
                         l12 = 14;
                         break L61;
                        }
                        l18 = 18;
                        l17 = 0;
                        l12 = 19;
                        if (((1 << l8) & 261117) != 0) { break L8; }
                        l15 = 0;
                        if (l8 == 1) { break L73; }
                        l2 = 0;
                        break L61;
                       }
                       if (l8 != 1) { break L8; }
                       l17 = l11 & 1;
                       l15 = 0;
                       l18 = 15;
                      }
                      l12 = l18;
                      l2 = l17;
                      l10 = l15;
                      l5 = l4;
                      break L2;
                     }
                     if ((l11 & 1) == 0) { break L63; }
                     if (((1 << l8) & 261375) != 0) { break L8; }
                     if (l8 == 8) { break L64; }
                     break L62;
                    }
                    l2 = 0;
                    l12 = 4;
                    break L61;
                   }
                   l2 = l11;
                   if (l8 != 2) { break L8; }
                  }
                  l6 = (l5 * 10L) + l6;
                  l5 = 0L;
                  l10 = 1;
                  l12 = 12;
                  break L2;
                 }
                 l2 = l11;
                 if (l8 != 3) { break L8; }
                }
                l6 = (l5 * 100L) + l6;
                l5 = 0L;
                l10 = 2;
                l12 = 12;
                break L2;
               }
               l2 = (l11 == 3) ? 5 : l11;
               break L7;
              }
              if (l8 != 8) { break L8; }
             }
             l7 = (l5 * 10L) + l7;
             l5 = 0L;
             l2 = 0;
             l12 = 17;
             break L61;
            }
            if (l8 != 9) { break L8; }
           }
           l7 = l5 + l7;
           l5 = 0L;
           l2 = 0;
           l12 = 19;
          }
          l10 = 0;
          break L2;
         }
         l2 = l11;
         if (l8 == 4) { break L7; }
        }
        l12 = 0;
        b[((int) l3) - 58900] = (byte) 0;
        Words.put32(b, ((int) l3) - 58904, 0);
        l4 = 0L;
        l1 = 0L;
        l2 = 0;
        l10 = 0;
        l7 = 0L;
        l6 = 0L;
        l5 = 0L;
        break L1;
       }
       l6 = (l5 * 1000L) + l6;
       l5 = 0L;
       l10 = 3;
       l12 = 12;
       break L2;
      }
      l7 = ((l5 + l7) + l6) * 100L;
      l6 = 0L;
      l10 = 0;
      l12 = 13;
      l5 = 0L;
      break L2;
     }
     l2 = 1;
     l12 = 8;
     break L3;
    }
    l2 = 0;
    l12 = 8;
   }
   l7 = ((l5 + l6) * 10000L) + l7;
   l6 = 0L;
   l10 = 0;
   l5 = 0L;
  }
  b[((int) l3) - 58900] = (byte) 0;
  Words.put32(b, ((int) l3) - 58904, 0);
  l4 = 1L;
  l1 = (((((l13 & 0xffffffffL) & 1L) << 16L) | (((l9 & 0xffffffffL) & 255L) << 8L)) | ((l14 & 0xffffffffL) & 1L)) | 184549376L;
 }
 Words.put64(b, ((int) l0) - 58912, l4);
 b[((int) (l0 + 18L)) - 58912] = (byte) l10;
 b[((int) (l0 + 17L)) - 58912] = (byte) l2;
 b[((int) (l0 + 16L)) - 58912] = (byte) l12;
 Words.put64(b, ((int) (l0 + 8L)) - 58912, l1);
 Words.put32(b, ((int) (l0 + 19L)) - 58912, Words.get32(b, ((int) l3) - 58904));
 b[((int) (l0 + 23L)) - 58912] = (byte) (b[((int) l3) - 58900] & 0xff);
 Words.put64(b, ((int) (l0 + 40L)) - 58912, l5);
 Words.put64(b, ((int) (l0 + 32L)) - 58912, l6);
 Words.put64(b, ((int) (l0 + 24L)) - 58912, l7);
}

static void f22(State m, long l0, long l1, int l2) {
 final byte[] b = m.bytes;
 long l3 = 0;
 int l4 = 0;
 int l5 = 0;
 int l6 = 0;
 int l7 = 0;
 int l8 = 0;
 int l9 = 0;
 int l10 = 0;
 int l11 = 0;
 int l12 = 0;
 int l13 = 0;
 int l14 = 0;
 int l15 = 0;
 int l16 = 0;
 int l17 = 0;
 int l18 = 0;
 L1: {
  L2: {
   L3: {
    L4: {
     L5: {
      L6: {
       L7: {
        L8: {
         L9: {
          L10: {
           L11: {
            if (m.g0 < 16L) { break L11; }
            L12: {
             if ((l4 = Words.get32(b, State.far((int) (l3 = (((l2 * 69) >>> 1) & 0xffffffffL) & 248L), 66236))) != l2) { break L12; }
             if (((b[((int) (l3 + 66240L)) - 58912] & 0xff) & 255) != 1) { break L12; }
             final int t13 = l5 = b[((int) (l3 + 66242L)) - 58912] & 0xff;
             final int t14 = (l4 == l2) ? 1 : 0;
             l6 = t14 != 0 ? t13 : 0;
             l8 = (l7 = Words.get32(b, ((int) (l1 + 2L)) - 58912)) >>> 24;
             l9 = l7 >>> 16;
             l10 = b[((int) (l1 + 6L)) - 58912] & 0xff;
             l11 = b[((int) (l3 + 66241L)) - 58912] & 0xff;
             l12 = 0;
             l4 = 0;
             l13 = 0;
             l2 = 0;
             l14 = 0;
             l15 = 0;
             l16 = 0;
             L15: {
              L16: {
               L17: {
                L18: {
                 L19: {
                  L20: {
                   L21: {
                    L22: {
                     L23: {
                      L24: {
                       L25: {
                        L26: {
                         L27: {
                          switch ((int) (b[((int) l1) - 58912] & 0xffL)) {
                          case 1: break L26;
                          case 2: break L25;
                          case 3: break L1;
                          default: break L27;
                          }
                         }
                         L28: {
                          L29: {
                           switch (l11) {
                           case 1: case 3: case 4: break L24;
                           case 2: break L28;
                           default: break L29;
                           }
                          }
                          if ((l7 & 65535) + Integer.MIN_VALUE > -2147482649) { break L24; }
                          if (((l13 = (l7 * 10) + l5) & 65535) == 0) { break L24; }
                          l4 = 0;
                          l12 = 1;
                          break L4;
                         }
                         if ((l7 & 65535) == 0) { break L24; }
                         l2 = 0;
                         l12 = 1;
                         l4 = 1;
                         l13 = l7;
                         break L3;
                        }
                        L30: {
                         if (l11 != 3) { break L30; }
                         l12 = 0;
                         l4 = 0;
                         l13 = 0;
                         l2 = 0;
                         l14 = 0;
                         l15 = 0;
                         l16 = 0;
                         L31: {
                          L32: {
                           L33: {
                            L34: {
                             switch ((int) ((l9 & 0xffffffffL) & 255L)) {
                             case 2: break L31;
                             case 3: break L34;
                             case 4: break L32;
                             case 6: break L33;
                             default: break L1;
                             }
                            }
                            l8 = l8 * 10;
                            break L31;
                           }
                           l8 = (l8 * 10) + l10;
                           break L31;
                          }
                          if (l8 == 1) { break L24; }
                         }
                         l4 = 2;
                         L35: {
                          if ((l8 & 255) != 2) { break L35; }
                          l12 = 1;
                          l14 = 0;
                          l8 = 2;
                          L36: {
                           if ((l7 & 3) == 0) { break L36; }
                           l15 = 28;
                           break L6;
                          }
                          final int t37 = (((int) (((l2 = l7 & 65535) & 0xffffffffL) % 400L)) != 0) ? 28 : 29;
                          final int t38 = (int) ((l2 & 0xffffffffL) % 100L);
                          l15 = t38 != 0 ? 29 : t37;
                          break L6;
                         }
                         final int t39 = ((l2 = l8 & 253) == 9) ? 30 : 31;
                         final int t40 = (l2 == 4) ? 1 : 0;
                         l15 = t40 != 0 ? 30 : t39;
                         l12 = 1;
                         l14 = 0;
                         l13 = l7;
                         break L5;
                        }
                        l12 = 0;
                        l4 = 0;
                        l13 = 0;
                        l2 = 0;
                        l14 = 0;
                        l15 = 0;
                        l16 = 0;
                        L41: {
                         L42: {
                          L43: {
                           L44: {
                            L45: {
                             L46: {
                              L47: {
                               L48: {
                                switch ((int) ((l9 & 0xffffffffL) & 255L)) {
                                case 1: break L47;
                                case 2: break L46;
                                case 3: case 6: break L1;
                                case 4: break L45;
                                case 5: break L43;
                                default: break L48;
                                }
                               }
                               if (l11 != 0) { break L24; }
                               l8 = 0;
                               l16 = 1;
                               l2 = l5;
                               l15 = 0;
                               l14 = 0;
                               l13 = 0;
                               l4 = 0;
                               l12 = 0;
                               switch (l5) {
                               case 0: break L41;
                               case 2: break L5;
                               default: break L42;
                               }
                              }
                              l2 = 0;
                              if (l11 != 0) { break L7; }
                              if (l5 == 0) { break L7; }
                              l16 = 2;
                              l5 = l6;
                              break L41;
                             }
                             if (l11 != 1) { break L24; }
                             l16 = 3;
                             break L44;
                            }
                            if (l11 != 1) { break L24; }
                            l16 = 5;
                           }
                           l5 = 1;
                           l11 = (l8 == 1) ? 1 : 0;
                           l2 = 0;
                           l8 = 0;
                           l15 = 0;
                           l14 = 0;
                           l13 = 0;
                           l4 = 0;
                           l12 = 0;
                           if (l11 != 0) { break L41; }
                           break L5;
                          }
                          l12 = 0;
                          if (l11 != 0) { break L22; }
                          l4 = 0;
                          l13 = 0;
                          l2 = 0;
                          l14 = 0;
                          l15 = 0;
                          l16 = 0;
                          if (l5 == 0) { break L1; }
                          l2 = (l8 != 1) ? 1 : 0;
                          l8 = 0;
                          L49: {
                           if (l2 == 0) { break L49; }
                           l15 = 0;
                           l14 = 0;
                           l13 = 0;
                           l4 = 0;
                           l12 = 0;
                           break L5;
                          }
                          l15 = 0;
                          l14 = 0;
                          l13 = 0;
                          l4 = 0;
                          l12 = 0;
                          if (l5 + Integer.MIN_VALUE >= -2147483645) { break L5; }
                          l16 = 6;
                          l5 = 1;
                          l2 = l6;
                          break L41;
                         }
                         l2 = 0;
                         l16 = 4;
                        }
                        l4 = 1;
                        l8 = l16;
                        l15 = l5;
                        l14 = l2;
                        l13 = l7;
                        l12 = 1;
                        break L5;
                       }
                       l17 = b[((int) (l1 + 7L)) - 58912] & 0xff;
                       L50: {
                        if (l11 != 4) { break L50; }
                        l14 = 0;
                        l6 = 1;
                        l18 = 3;
                        l11 = l7;
                        l5 = l9;
                        l15 = 0;
                        l16 = 0;
                        l12 = 0;
                        l4 = 0;
                        l13 = 0;
                        l2 = 0;
                        L51: {
                         L52: {
                          switch (l10) {
                          case 2: break L8;
                          case 3: break L52;
                          case 6: break L51;
                          default: break L1;
                          }
                         }
                         l17 = l17 * 10;
                         break L9;
                        }
                        l17 = (l17 * 10) + (b[((int) (l1 + 8L)) - 58912] & 0xff);
                        break L9;
                       }
                       l12 = 0;
                       l4 = 0;
                       l13 = 0;
                       l2 = 0;
                       l14 = 0;
                       l15 = 0;
                       l16 = 0;
                       L53: {
                        L54: {
                         L55: {
                          L56: {
                           switch (l10) {
                           case 1: break L55;
                           case 2: break L54;
                           case 3: case 6: break L1;
                           case 4: break L53;
                           case 5: break L23;
                           default: break L56;
                           }
                          }
                          if (l11 != 0) { break L24; }
                          if (l5 == 0) { break L16; }
                          l4 = 4;
                          l2 = l6;
                          break L19;
                         }
                         l16 = 0;
                         if (l11 != 0) { break L10; }
                         if (l5 == 0) { break L10; }
                         l4 = 2;
                         l2 = l6;
                         break L15;
                        }
                        if (l11 != 1) { break L24; }
                        l16 = 0;
                        if (((l17 * 10) & 254) + Integer.MIN_VALUE > l8 + Integer.MIN_VALUE) { break L18; }
                        l4 = 3;
                        l2 = l17;
                        break L15;
                       }
                       if (l11 == 1) { break L20; }
                      }
                      l12 = 0;
                      break L22;
                     }
                     l12 = 0;
                     if (l11 == 0) { break L21; }
                    }
                    l4 = 0;
                    l13 = 0;
                    break L4;
                   }
                   l4 = 0;
                   l13 = 0;
                   l2 = 0;
                   l14 = 0;
                   l15 = 0;
                   l16 = 0;
                   if (l5 == 0) { break L1; }
                   L57: {
                    if (((l5 + (l17 * 10)) & 255) + Integer.MIN_VALUE > l8 + Integer.MIN_VALUE) { break L57; }
                    l4 = 6;
                    l2 = l17;
                    l16 = l6;
                    break L15;
                   }
                   l11 = 0;
                   l5 = 0;
                   l17 = 0;
                   l14 = 0;
                   l15 = 0;
                   l16 = 0;
                   break L17;
                  }
                  l4 = 5;
                  l2 = l17;
                 }
                 l16 = 0;
                 l11 = 0;
                 l5 = 0;
                 l17 = 0;
                 l14 = 0;
                 l15 = 0;
                 l18 = 0;
                 l6 = 0;
                 if (((l2 * 10) & 254) + Integer.MIN_VALUE < l8 + Integer.MIN_VALUE) { break L15; }
                 break L8;
                }
                l11 = 0;
                l5 = 0;
                l17 = 0;
                l14 = 0;
                l15 = 0;
               }
               l18 = 0;
               l6 = 0;
               break L8;
              }
              l2 = 0;
              l4 = 1;
              l16 = 0;
             }
             l6 = 1;
             l18 = 2;
             l11 = l7;
             l5 = l9;
             l17 = l8;
             l14 = l4;
             l15 = l2;
             break L8;
            }
            Words.put32(b, ((int) l0) - 58905, 0);
            Words.put64(b, ((int) l0) - 58912, 0L);
            return;
           }
           throw State.trap();
          }
          l12 = 0;
          l4 = 0;
          l13 = 0;
          l2 = 0;
          l14 = 0;
          l15 = 0;
          break L1;
         }
         l14 = 0;
         l11 = l7;
         l5 = l9;
         l15 = 0;
         l16 = 0;
        }
        l2 = ((l17 & 255) << 8) | (l5 & 255);
        l12 = l6;
        l4 = l18;
        l13 = l11;
        break L1;
       }
       l12 = 0;
       l4 = 0;
       l13 = 0;
       break L3;
      }
      l13 = l7;
      l4 = 2;
     }
     l2 = (l15 << 8) | (l8 & 255);
     break L2;
    }
    l2 = 0;
   }
   l14 = 0;
  }
  l15 = 0;
  l16 = 0;
 }
 Words.put16(b, ((int) l0) - 58912, (short) l12);
 b[((int) (l0 + 10L)) - 58912] = (byte) l16;
 b[((int) (l0 + 9L)) - 58912] = (byte) l15;
 b[((int) (l0 + 8L)) - 58912] = (byte) l14;
 Words.put16(b, ((int) (l0 + 2L)) - 58912, (short) l4);
 Words.put32(b, ((int) (l0 + 4L)) - 58912, (l2 << 16) | (l13 & 65535));
}

static void f23(State m, long l0, long l1, int l2) {
 final byte[] b = m.bytes;
 long l3 = 0;
 long l4 = 0;
 long l5 = 0;
 int l6 = 0;
 int l7 = 0;
 int l8 = 0;
 int l9 = 0;
 m.g0 = l3 = m.g0 - 16L;
 L1: {
  L2: {
   L3: {
    L4: {
     L5: {
      L6: {
       L7: {
        L8: {
         L9: {
          L10: {
           if ((l3 = l3) < 16L) { break L10; }
           l6 = b[((int) (l1 + 16L)) - 58912] & 0xff;
           l4 = Words.get64(b, ((int) (l1 + 24L)) - 58912);
           l7 = b[((int) (l1 + 8L)) - 58912] & 0xff;
           l8 = b[((int) l1) - 58912] & 0xff;
           L11: {
            L12: {
             if (l2 == 45) { break L12; }
             if (l2 == 8722) { break L12; }
             if (l2 == 65293) { break L12; }
             final int t13 = l8 = l8 & 255;
             final int t14 = (l8 + Integer.MIN_VALUE > -2147483647) ? 1 : 0;
             l8 = t14 != 0 ? t13 : 1;
             break L11;
            }
            if ((l8 & 255) == 0) { break L2; }
           }
           L15: {
            L16: {
             L17: {
              L18: {
               L19: {
                if (l2 > 65291) { break L19; }
                switch (l2 + -44) {
                case 0: break L18;
                case 1: break L9;
                case 2: break L17;
                default: break L16;
                }
               }
               L20: {
                switch (l2 + -65292) {
                case 0: break L18;
                case 1: break L9;
                case 2: break L17;
                default: break L20;
                }
               }
               if (l2 == 65509) { break L15; }
               break L9;
              }
              l2 = 6;
              if (((1 << l7) & 7651) == 0) { break L3; }
              break L8;
             }
             l2 = 10;
             if (((1 << l7) & 7619) != 0) { break L8; }
             break L3;
            }
            if (l2 != 165) { break L9; }
           }
           if (l7 != 0) { break L8; }
           l2 = 1;
           break L3;
          }
          throw State.trap();
         }
         f24(m, l3 + 8L, l2);
         if (((b[((int) l3) - 58904] & 0xff) & 1) == 0) { break L8; }
         l9 = b[((int) l3) - 58903] & 0xff;
         l2 = 3;
         L21: {
          L22: {
           L23: {
            L24: {
             L25: {
              L26: {
               switch (l7) {
               case 2: break L4;
               case 3: break L26;
               case 4: case 5: break L25;
               case 6: break L24;
               case 7: break L23;
               case 8: break L22;
               case 9: break L8;
               case 10: break L6;
               case 11: break L7;
               case 12: break L21;
               default: break L5;
               }
              }
              l2 = 4;
              break L4;
             }
             l2 = 5;
             break L4;
            }
            l2 = 7;
            break L4;
           }
           l2 = 8;
           break L4;
          }
          l2 = 9;
          break L4;
         }
         if ((l9 & 255) != 0) { break L8; }
         l2 = 12;
         break L3;
        }
        Words.put64(b, ((int) l0) - 58912, 0L);
        Words.put64(b, ((int) (l0 + 24L)) - 58912, 0L);
        b[((int) (l0 + 16L)) - 58912] = (byte) 0;
        b[((int) (l0 + 8L)) - 58912] = (byte) 0;
        Words.put64(b, ((int) (l0 + 32L)) - 58912, 0L);
        break L1;
       }
       final long t27 = l5 = l4 + (l1 = (l9 & 0xffffffffL) & 255L);
       final int t28 = l6 = (((l6 & 255) == 1) & ((l4 + Long.MIN_VALUE <= (l1 ^ -1L) + Long.MIN_VALUE) & (l5 + Long.MIN_VALUE < -8223372036854775808L))) ? 1 : 0;
       l4 = t28 != 0 ? t27 : 0L;
       l2 = 12;
       break L3;
      }
      final long t29 = l5 = (l1 = ((l9 & 0xffffffffL) & 255L) * 10L) + l4;
      final int t30 = l6 = (((l6 & 255) == 1) & ((l4 + Long.MIN_VALUE <= (l1 ^ -1L) + Long.MIN_VALUE) & (l5 + Long.MIN_VALUE < -8223372036854775808L))) ? 1 : 0;
      l4 = t30 != 0 ? t29 : 0L;
      l2 = 11;
      break L3;
     }
     l2 = 2;
    }
    l7 = l6 & 255;
    l6 = 0;
    L31: {
     if (l7 == 1) { break L31; }
     l4 = 0L;
     break L3;
    }
    L32: {
     if (l4 + Long.MIN_VALUE <= -7378697629483820647L) { break L32; }
     l4 = 0L;
     break L3;
    }
    L33: {
     if ((l1 = l4 * 10L) + Long.MIN_VALUE <= ((l4 = ((l9 & 0xffffffffL) & 255L) * 100L) ^ -1L) + Long.MIN_VALUE) { break L33; }
     l4 = 0L;
     break L3;
    }
    final long t34 = l1 = l4 + l1;
    final int t35 = l6 = (l1 + Long.MIN_VALUE < -8223372036854775808L) ? 1 : 0;
    l4 = t35 != 0 ? t34 : 0L;
   }
   Words.put64(b, ((int) l0) - 58912, 1L);
   Words.put64(b, ((int) (l0 + 32L)) - 58912, l4);
   b[((int) (l0 + 16L)) - 58912] = (byte) l2;
   b[((int) (l0 + 8L)) - 58912] = (byte) l8;
   Words.put64(b, ((int) (l0 + 24L)) - 58912, (l6 & 0xffffffffL) & 255L);
   break L1;
  }
  Words.put64(b, ((int) l0) - 58912, 1L);
  Words.put64(b, ((int) (l0 + 32L)) - 58912, l4);
  Words.put64(b, ((int) (l0 + 24L)) - 58912, (l6 & 0xffffffffL) & 255L);
  b[((int) (l0 + 16L)) - 58912] = (byte) l7;
  b[((int) (l0 + 8L)) - 58912] = (byte) 2;
 }
 m.g0 = l3 + 16L;
}

static void f24(State m, long l0, int l1) {
 final byte[] b = m.bytes;
 int l2 = 0;
 int l3 = 0;
 L1: {
  if (m.g0 < 16L) { break L1; }
  l2 = 0;
  l3 = 1;
  L2: {
   L3: {
    L4: {
     L5: {
      L6: {
       L7: {
        L8: {
         L9: {
          L10: {
           L11: {
            L12: {
             L13: {
              switch (l1 + -48) {
              case 0: break L2;
              case 1: break L12;
              case 2: break L11;
              case 3: break L10;
              case 4: break L9;
              case 5: break L8;
              case 6: break L7;
              case 7: break L6;
              case 8: break L5;
              case 9: break L4;
              default: break L13;
              }
             }
             switch (l1 + -65296) {
             case 0: break L2;
             case 1: break L12;
             case 2: break L11;
             case 3: break L10;
             case 4: break L9;
             case 5: break L8;
             case 6: break L7;
             case 7: break L6;
             case 8: break L5;
             case 9: break L4;
             default: break L3;
             }
            }
            l3 = 1;
            l2 = 1;
            break L2;
           }
           l2 = 2;
           break L2;
          }
          l2 = 3;
          break L2;
         }
         l2 = 4;
         break L2;
        }
        l2 = 5;
        break L2;
       }
       l2 = 6;
       break L2;
      }
      l2 = 7;
      break L2;
     }
     l2 = 8;
     break L2;
    }
    l2 = 9;
    break L2;
   }
   l3 = 0;
   l2 = 0;
  }
  b[((int) l0) - 58911] = (byte) l2;
  b[((int) l0) - 58912] = (byte) l3;
  return;
 }
 throw State.trap();
}

static void f25(State m, long l0, long l1, long l2, long l3) {
 final byte[] b = m.bytes;
 long l4 = 0;
 long l5 = 0;
 long l6 = 0;
 long l7 = 0;
 L1: {
  if (m.g0 < 16L) { break L1; }
  l4 = 0L;
  L2: {
   if (l2 + Long.MIN_VALUE < -9223372036854775776L) { break L2; }
   l5 = l2 & -32L;
   l4 = 0L;
   l6 = l2;
   L3: while (true) {
    if (l3 + Long.MIN_VALUE < (l7 = ((((((((((((((((((((((((((((((((((int) b[((int) (l7 = l1 + l4)) - 58912]) > -65) ? 1L : 0L) + ((((int) b[((int) (l7 + 1L)) - 58912]) > -65) ? 1L : 0L)) + ((((int) b[((int) (l7 + 2L)) - 58912]) > -65) ? 1L : 0L)) + ((((int) b[((int) (l7 + 3L)) - 58912]) > -65) ? 1L : 0L)) + ((((int) b[((int) (l7 + 4L)) - 58912]) > -65) ? 1L : 0L)) + ((((int) b[((int) (l7 + 5L)) - 58912]) > -65) ? 1L : 0L)) + ((((int) b[((int) (l7 + 6L)) - 58912]) > -65) ? 1L : 0L)) + ((((int) b[((int) (l7 + 7L)) - 58912]) > -65) ? 1L : 0L)) + ((((int) b[((int) (l7 + 8L)) - 58912]) > -65) ? 1L : 0L)) + ((((int) b[((int) (l7 + 9L)) - 58912]) > -65) ? 1L : 0L)) + ((((int) b[((int) (l7 + 10L)) - 58912]) > -65) ? 1L : 0L)) + ((((int) b[((int) (l7 + 11L)) - 58912]) > -65) ? 1L : 0L)) + ((((int) b[((int) (l7 + 12L)) - 58912]) > -65) ? 1L : 0L)) + ((((int) b[((int) (l7 + 13L)) - 58912]) > -65) ? 1L : 0L)) + ((((int) b[((int) (l7 + 14L)) - 58912]) > -65) ? 1L : 0L)) + ((((int) b[((int) (l7 + 15L)) - 58912]) > -65) ? 1L : 0L)) + ((((int) b[((int) (l7 + 16L)) - 58912]) > -65) ? 1L : 0L)) + ((((int) b[((int) (l7 + 17L)) - 58912]) > -65) ? 1L : 0L)) + ((((int) b[((int) (l7 + 18L)) - 58912]) > -65) ? 1L : 0L)) + ((((int) b[((int) (l7 + 19L)) - 58912]) > -65) ? 1L : 0L)) + ((((int) b[((int) (l7 + 20L)) - 58912]) > -65) ? 1L : 0L)) + ((((int) b[((int) (l7 + 21L)) - 58912]) > -65) ? 1L : 0L)) + ((((int) b[((int) (l7 + 22L)) - 58912]) > -65) ? 1L : 0L)) + ((((int) b[((int) (l7 + 23L)) - 58912]) > -65) ? 1L : 0L)) + ((((int) b[((int) (l7 + 24L)) - 58912]) > -65) ? 1L : 0L)) + ((((int) b[((int) (l7 + 25L)) - 58912]) > -65) ? 1L : 0L)) + ((((int) b[((int) (l7 + 26L)) - 58912]) > -65) ? 1L : 0L)) + ((((int) b[((int) (l7 + 27L)) - 58912]) > -65) ? 1L : 0L)) + ((((int) b[((int) (l7 + 28L)) - 58912]) > -65) ? 1L : 0L)) + ((((int) b[((int) (l7 + 29L)) - 58912]) > -65) ? 1L : 0L)) + ((((int) b[((int) (l7 + 30L)) - 58912]) > -65) ? 1L : 0L)) + ((((int) b[((int) (l7 + 31L)) - 58912]) > -65) ? 1L : 0L)) + Long.MIN_VALUE) { break L2; }
    l4 = l4 + 32L;
    l3 = l3 - l7;
    if ((l6 = l6 + -32L) + Long.MIN_VALUE > -9223372036854775777L) { continue L3; }
    break L3;
   }
   l4 = l5;
  }
  L4: {
   if (l4 + Long.MIN_VALUE >= l2 + Long.MIN_VALUE) { break L4; }
   L5: while (true) {
    if (((int) b[((int) (l1 + l4)) - 58912]) > -65) { break L4; }
    if (l2 != (l4 = l4 + 1L)) { continue L5; }
    break L5;
   }
   l4 = l2;
  }
  Words.put64(b, ((int) l0) - 58904, l3);
  Words.put64(b, ((int) l0) - 58912, l4);
  return;
 }
 throw State.trap();
}

static int f26_1(State m, long l11, long l12, long l13, long l14, long l15, int l16, int l17, int l18, int l19, int l20, int l21, int l22, int l23, int l24, int l25) {
 final byte[] b = m.bytes;
 int exit = 0;
 PART: {
  L54: {
   L55: {
    switch (l16) {
    case 1: break L54;
    case 2: exit = 1; break PART;
    default: break L55;
    }
   }
   if (Words.get32(b, State.far((int) (l14 = (((l17 * 3227) >>> 7) & 0xffffffffL) & 504L), 65536)) != l17) { exit = 2; break PART; }
   if (((b[((int) (l14 + 65540L)) - 58912] & 0xff) & 255) != 1) { exit = 2; break PART; }
   l15 = b[((int) (l14 + 65542L)) - 58912] & 0xffL;
   l21 = b[((int) (l14 + 65541L)) - 58912] & 0xff;
   L56: {
    L57: {
     L58: {
      L59: {
       L60: {
        L61: {
         L62: {
          L63: {
           L64: {
            L65: {
             L66: {
              L67: {
               L68: {
                L69: {
                 L70: {
                  L71: {
                   L72: {
                    L73: {
                     L74: {
                      L75: {
                       L76: {
                        L77: {
                         L78: {
                          L79: {
                           L80: {
                            L81: {
                             L82: {
                              L83: {
                               switch (l20) {
                               case 1: break L72;
                               case 2: break L71;
                               case 3: break L70;
                               case 4: break L69;
                               case 5: break L83;
                               case 6: break L82;
                               case 7: break L81;
                               case 8: break L80;
                               case 9: break L79;
                               case 10: break L78;
                               case 11: break L77;
                               case 12: break L76;
                               case 13: break L68;
                               case 14: break L66;
                               case 15: break L64;
                               case 16: break L58;
                               case 17: break L67;
                               case 18: break L56;
                               case 19: exit = 2; break PART;
                               default: break L73;
                               }
                              }
                              L84: {
                               if (((1 << l21) & 261375) != 0) { break L84; }
                               if (l21 == 8) { break L57; }
                               exit = 3; break PART;
                              }
                              L85: {
                               if ((l21 + -5) + Integer.MIN_VALUE < -2147483635) { break L85; }
                               l22 = 0;
                               switch (l21) {
                               case 2: break L62;
                               case 3: break L60;
                               case 4: exit = 4; break PART;
                               default: break L85;
                               }
                              }
                              l22 = 0;
                              l20 = 6;
                              switch (l21) {
                              case 5: exit = 5; break PART;
                              case 6: break L75;
                              case 7: exit = 6; break PART;
                              default: exit = 2; break PART;
                              }
                             }
                             L86: {
                              if ((l21 + -6) + Integer.MIN_VALUE < -2147483636) { break L86; }
                              l23 = 3;
                              l24 = 10;
                              l25 = l21;
                              switch (l21) {
                              case 1: break L65;
                              case 2: case 3: case 4: break L86;
                              case 5: exit = 2; break PART;
                              default: exit = 7; break PART;
                              }
                             }
                             l22 = 1;
                             if (((1 << l21) & 261948) != 0) { exit = 2; break PART; }
                             if (l21 != 6) { exit = 6; break PART; }
                             break L75;
                            }
                            L87: {
                             if ((l21 + -6) + Integer.MIN_VALUE < -2147483636) { break L87; }
                             l23 = 3;
                             l25 = 4;
                             l24 = 10;
                             L88: {
                              switch (l21) {
                              case 1: break L65;
                              case 2: case 3: case 4: break L87;
                              case 5: exit = 2; break PART;
                              default: break L88;
                              }
                             }
                             l18 = 3;
                             l22 = (l19 & 1) ^ 3;
                             exit = 8; break PART;
                            }
                            l22 = 1;
                            l20 = 8;
                            if (((1 << l21) & 261980) != 0) { exit = 2; break PART; }
                            if (l21 != 5) { exit = 6; break PART; }
                            exit = 5; break PART;
                           }
                           l22 = 1;
                           l23 = 3;
                           l25 = 5;
                           l24 = 10;
                           L89: {
                            switch (l21) {
                            case 1: break L65;
                            case 2: case 3: case 4: case 5: case 6: case 8: case 9: case 10: case 11: case 12: case 13: case 14: case 15: case 16: case 17: exit = 2; break PART;
                            case 7: exit = 6; break PART;
                            default: break L89;
                            }
                           }
                           l18 = (l19 & 1) | 2;
                           l22 = 5;
                           exit = 8; break PART;
                          }
                          if (l21 != 1) { exit = 2; break PART; }
                          l24 = 11;
                          l25 = l19;
                          l23 = l18;
                          break L65;
                         }
                         L90: {
                          switch (l18) {
                          case 1: break L63;
                          case 2: break L61;
                          case 3: exit = 9; break PART;
                          default: break L90;
                          }
                         }
                         L91: {
                          L92: {
                           L93: {
                            L94: {
                             L95: {
                              switch (l19) {
                              case 1: break L92;
                              case 2: case 3: break L94;
                              case 4: break L93;
                              case 5: break L91;
                              default: break L95;
                              }
                             }
                             l22 = 0;
                             l20 = 6;
                             switch (l21) {
                             case 5: exit = 5; break PART;
                             case 6: break L75;
                             case 7: exit = 6; break PART;
                             default: exit = 2; break PART;
                             }
                            }
                            l22 = 0;
                            l20 = 8;
                            if (((1 << l21) & 261983) != 0) { exit = 2; break PART; }
                            if (l21 != 5) { exit = 6; break PART; }
                            exit = 5; break PART;
                           }
                           if (l21 != 5) { exit = 2; break PART; }
                           exit = 10; break PART;
                          }
                          l22 = 0;
                          if (((1 << l21) & 261951) != 0) { exit = 2; break PART; }
                          if (l21 != 6) { exit = 6; break PART; }
                          break L75;
                         }
                         if (l21 != 7) { exit = 2; break PART; }
                         l22 = 0;
                         exit = 6; break PART;
                        }
                        L96: {
                         L97: {
                          L98: {
                           L99: {
                            switch (l18) {
                            case 1: break L97;
                            case 2: break L98;
                            case 3: break L99;
                            default: break L96;
                            }
                           }
                           L100: {
                            if ((l21 + -5) + Integer.MIN_VALUE < -2147483635) { break L100; }
                            l22 = l19;
                            switch (l21) {
                            case 2: break L62;
                            case 3: break L60;
                            case 4: break L59;
                            default: break L100;
                            }
                           }
                           L101: {
                            L102: {
                             L103: {
                              L104: {
                               L105: {
                                switch (l19) {
                                case 1: break L102;
                                case 2: case 3: break L104;
                                case 4: break L103;
                                case 5: break L101;
                                default: break L105;
                                }
                               }
                               l22 = 0;
                               l20 = 6;
                               switch (l21) {
                               case 5: exit = 5; break PART;
                               case 6: break L75;
                               case 7: exit = 6; break PART;
                               default: exit = 2; break PART;
                               }
                              }
                              l22 = 0;
                              l20 = 8;
                              if (((1 << l21) & 261983) != 0) { exit = 2; break PART; }
                              if (l21 != 5) { exit = 6; break PART; }
                              exit = 5; break PART;
                             }
                             if (l21 == 5) { exit = 10; break PART; }
                             exit = 2; break PART;
                            }
                            l22 = 0;
                            if (((1 << l21) & 261951) != 0) { exit = 2; break PART; }
                            if (l21 != 6) { exit = 6; break PART; }
                            break L75;
                           }
                           if (l21 != 7) { exit = 2; break PART; }
                           l22 = 0;
                           exit = 6; break PART;
                          }
                          L106: {
                           if ((l21 + -4) + Integer.MIN_VALUE < -2147483634) { break L106; }
                           l22 = l19;
                           switch (l21) {
                           case 2: break L62;
                           case 3: break L60;
                           default: break L106;
                           }
                          }
                          L107: {
                           L108: {
                            L109: {
                             L110: {
                              L111: {
                               switch (l19) {
                               case 1: break L108;
                               case 2: case 3: break L110;
                               case 4: break L109;
                               case 5: break L107;
                               default: break L111;
                               }
                              }
                              l22 = 0;
                              l20 = 6;
                              switch (l21) {
                              case 5: exit = 5; break PART;
                              case 6: break L75;
                              case 7: exit = 6; break PART;
                              default: exit = 2; break PART;
                              }
                             }
                             l22 = 0;
                             l20 = 8;
                             if (((1 << l21) & 261983) != 0) { exit = 2; break PART; }
                             if (l21 != 5) { exit = 6; break PART; }
                             exit = 5; break PART;
                            }
                            if (l21 == 5) { exit = 10; break PART; }
                            exit = 2; break PART;
                           }
                           l22 = 0;
                           if (((1 << l21) & 261951) != 0) { exit = 2; break PART; }
                           if (l21 != 6) { exit = 6; break PART; }
                           break L75;
                          }
                          if (l21 != 7) { exit = 2; break PART; }
                          l22 = 0;
                          exit = 6; break PART;
                         }
                         L112: {
                          if ((l21 + -5) + Integer.MIN_VALUE < -2147483635) { break L112; }
                          l22 = l19;
                          switch (l21) {
                          case 2: break L62;
                          case 3: case 4: exit = 2; break PART;
                          default: break L112;
                          }
                         }
                         L113: {
                          L114: {
                           L115: {
                            L116: {
                             L117: {
                              switch (l19) {
                              case 1: break L114;
                              case 2: case 3: break L116;
                              case 4: break L115;
                              case 5: break L113;
                              default: break L117;
                              }
                             }
                             l22 = 0;
                             l20 = 6;
                             switch (l21) {
                             case 5: exit = 5; break PART;
                             case 6: break L75;
                             case 7: exit = 6; break PART;
                             default: exit = 2; break PART;
                             }
                            }
                            l22 = 0;
                            l20 = 8;
                            if (((1 << l21) & 261983) != 0) { exit = 2; break PART; }
                            if (l21 != 5) { exit = 6; break PART; }
                            exit = 5; break PART;
                           }
                           if (l21 == 5) { exit = 10; break PART; }
                           exit = 2; break PART;
                          }
                          l22 = 0;
                          if (((1 << l21) & 261951) != 0) { exit = 2; break PART; }
                          if (l21 != 6) { exit = 6; break PART; }
                          break L75;
                         }
                         if (l21 != 7) { exit = 2; break PART; }
                         l22 = 0;
                         exit = 6; break PART;
                        }
                        L118: {
                         L119: {
                          L120: {
                           L121: {
                            L122: {
                             switch (l19) {
                             case 1: break L119;
                             case 2: case 3: break L121;
                             case 4: break L120;
                             case 5: break L118;
                             default: break L122;
                             }
                            }
                            l22 = 0;
                            l20 = 6;
                            switch (l21) {
                            case 5: exit = 5; break PART;
                            case 6: break L75;
                            case 7: exit = 6; break PART;
                            default: exit = 2; break PART;
                            }
                           }
                           l22 = 0;
                           l20 = 8;
                           if (((1 << l21) & 261983) != 0) { exit = 2; break PART; }
                           if (l21 != 5) { exit = 6; break PART; }
                           exit = 5; break PART;
                          }
                          if (l21 == 5) { exit = 10; break PART; }
                          exit = 2; break PART;
                         }
                         l22 = 0;
                         if (((1 << l21) & 261951) != 0) { exit = 2; break PART; }
                         if (l21 != 6) { exit = 6; break PART; }
                         break L75;
                        }
                        if (l21 != 7) { exit = 2; break PART; }
                        l22 = 0;
                        exit = 6; break PART;
                       }
                       L123: {
                        L124: {
                         L125: {
                          L126: {
                           switch (l18) {
                           case 1: break L124;
                           case 2: break L125;
                           case 3: break L126;
                           default: break L123;
                           }
                          }
                          L127: {
                           if ((l21 + -2) + Integer.MIN_VALUE < -2147483632) { break L127; }
                           l18 = 1;
                           l20 = 9;
                           l23 = 2;
                           l24 = 10;
                           l25 = l19;
                           l22 = l19;
                           switch (l21) {
                           case 1: break L65;
                           default: exit = 11; break PART;
                           }
                          }
                          L128: {
                           L129: {
                            L130: {
                             L131: {
                              L132: {
                               switch (l19) {
                               case 1: break L129;
                               case 2: case 3: break L131;
                               case 4: break L130;
                               case 5: break L128;
                               default: break L132;
                               }
                              }
                              l22 = 1;
                              l20 = 6;
                              switch (l21 + -2) {
                              case 3: exit = 5; break PART;
                              case 4: break L75;
                              case 5: exit = 6; break PART;
                              default: exit = 2; break PART;
                              }
                             }
                             l22 = 1;
                             l20 = 8;
                             if (((1 << l21) & 261980) != 0) { exit = 2; break PART; }
                             if (l21 != 5) { exit = 6; break PART; }
                             exit = 5; break PART;
                            }
                            if (l21 != 5) { exit = 2; break PART; }
                            exit = 12; break PART;
                           }
                           l22 = 1;
                           if (((1 << l21) & 261948) != 0) { exit = 2; break PART; }
                           if (l21 != 6) { exit = 6; break PART; }
                           break L75;
                          }
                          if (l21 != 7) { exit = 2; break PART; }
                          l22 = 1;
                          exit = 6; break PART;
                         }
                         L133: {
                          if ((l21 + -2) + Integer.MIN_VALUE < -2147483632) { break L133; }
                          l20 = 9;
                          l24 = 10;
                          l25 = l19;
                          l23 = l21;
                          l22 = l19;
                          l18 = l21;
                          switch (l21) {
                          case 1: break L65;
                          default: exit = 11; break PART;
                          }
                         }
                         L134: {
                          L135: {
                           L136: {
                            L137: {
                             L138: {
                              switch (l19) {
                              case 1: break L135;
                              case 2: case 3: break L137;
                              case 4: break L136;
                              case 5: break L134;
                              default: break L138;
                              }
                             }
                             l22 = 1;
                             l20 = 6;
                             switch (l21 + -2) {
                             case 3: exit = 5; break PART;
                             case 4: break L75;
                             case 5: exit = 6; break PART;
                             default: exit = 2; break PART;
                             }
                            }
                            l22 = 1;
                            l20 = 8;
                            if (((1 << l21) & 261980) != 0) { exit = 2; break PART; }
                            if (l21 != 5) { exit = 6; break PART; }
                            exit = 5; break PART;
                           }
                           if (l21 == 5) { exit = 12; break PART; }
                           exit = 2; break PART;
                          }
                          l22 = 1;
                          if (((1 << l21) & 261948) != 0) { exit = 2; break PART; }
                          if (l21 != 6) { exit = 6; break PART; }
                          break L75;
                         }
                         if (l21 != 7) { exit = 2; break PART; }
                         l22 = 1;
                         exit = 6; break PART;
                        }
                        L139: {
                         if ((l21 + -2) + Integer.MIN_VALUE < -2147483632) { break L139; }
                         l23 = 0;
                         l24 = 10;
                         l25 = l19;
                         switch (l21) {
                         case 1: break L65;
                         default: exit = 2; break PART;
                         }
                        }
                        L140: {
                         L141: {
                          L142: {
                           L143: {
                            L144: {
                             switch (l19) {
                             case 1: break L141;
                             case 2: case 3: break L143;
                             case 4: break L142;
                             case 5: break L140;
                             default: break L144;
                             }
                            }
                            l22 = 1;
                            l20 = 6;
                            switch (l21 + -2) {
                            case 3: exit = 5; break PART;
                            case 4: break L75;
                            case 5: exit = 6; break PART;
                            default: exit = 2; break PART;
                            }
                           }
                           l22 = 1;
                           l20 = 8;
                           if (((1 << l21) & 261980) != 0) { exit = 2; break PART; }
                           if (l21 != 5) { exit = 6; break PART; }
                           exit = 5; break PART;
                          }
                          if (l21 == 5) { exit = 12; break PART; }
                          exit = 2; break PART;
                         }
                         l22 = 1;
                         if (((1 << l21) & 261948) != 0) { exit = 2; break PART; }
                         if (l21 == 6) { break L75; }
                         exit = 6; break PART;
                        }
                        if (l21 != 7) { exit = 2; break PART; }
                        l22 = 1;
                        exit = 6; break PART;
                       }
                       L145: {
                        L146: {
                         L147: {
                          L148: {
                           switch (l19) {
                           case 1: break L145;
                           case 2: case 3: break L147;
                           case 4: break L146;
                           case 5: break L74;
                           default: break L148;
                           }
                          }
                          l22 = 1;
                          l20 = 6;
                          switch (l21) {
                          case 5: exit = 5; break PART;
                          case 6: break L75;
                          case 7: exit = 6; break PART;
                          default: exit = 2; break PART;
                          }
                         }
                         l22 = 1;
                         l20 = 8;
                         if (((1 << l21) & 261983) != 0) { exit = 2; break PART; }
                         if (l21 != 5) { exit = 6; break PART; }
                         exit = 5; break PART;
                        }
                        if (l21 == 5) { exit = 12; break PART; }
                        exit = 2; break PART;
                       }
                       l22 = 1;
                       if (((1 << l21) & 261951) != 0) { exit = 2; break PART; }
                       if (l21 != 6) { exit = 6; break PART; }
                      }
                      l13 = ((l11 + l13) + l12) * 100000000L;
                      exit = 13; break PART;
                     }
                     if (l21 != 7) { exit = 2; break PART; }
                     l22 = 1;
                     exit = 6; break PART;
                    }
                    l24 = 5;
                    l25 = 0;
                    l20 = 1;
                    l23 = 0;
                    l22 = 0;
                    l18 = 0;
                    switch (l21) {
                    case 1: break L65;
                    case 2: case 3: case 4: case 5: case 6: case 7: case 8: case 9: case 10: case 12: case 13: case 14: case 15: case 16: case 17: exit = 2; break PART;
                    case 11: exit = 11; break PART;
                    default: exit = 14; break PART;
                    }
                   }
                   if (l21 != 12) { exit = 2; break PART; }
                   exit = 15; break PART;
                  }
                  if (l21 != 13) { exit = 2; break PART; }
                  exit = 16; break PART;
                 }
                 if ((l21 + -2) + Integer.MIN_VALUE < -2147483632) { exit = 2; break PART; }
                 l25 = 0;
                 l24 = 5;
                 l23 = 0;
                 switch (l21) {
                 case 1: break L65;
                 default: exit = 14; break PART;
                 }
                }
                if (l21 != 7) { exit = 2; break PART; }
                l22 = 1;
                exit = 6; break PART;
               }
               l24 = 16;
               l25 = 0;
               l20 = 19;
               l23 = 0;
               l22 = 0;
               l18 = 0;
               L149: {
                switch (l21) {
                case 1: break L65;
                case 2: case 3: case 4: case 5: case 6: case 7: case 8: case 9: case 11: case 12: case 13: case 14: case 15: case 16: case 17: exit = 2; break PART;
                case 10: exit = 11; break PART;
                default: break L149;
                }
               }
               l22 = l19 & 1;
               exit = 17; break PART;
              }
              l24 = 18;
              l25 = 0;
              l20 = 19;
              if (((1 << l21) & 261117) != 0) { exit = 2; break PART; }
              l23 = 0;
              if (l21 == 1) { break L65; }
              exit = 18; break PART;
             }
             if (l21 != 1) { exit = 2; break PART; }
             l25 = l19 & 1;
             l23 = 0;
             l24 = 15;
            }
            l11 = l15;
            l20 = l24;
            l22 = l25;
            l18 = l23;
            exit = 11; break PART;
           }
           if ((l19 & 1) == 0) { break L56; }
           if (((1 << l21) & 261375) != 0) { exit = 2; break PART; }
           if (l21 == 8) { break L57; }
           exit = 3; break PART;
          }
          l22 = l19;
          if (l21 != 2) { exit = 2; break PART; }
         }
         l12 = (l11 * 10L) + l12;
         exit = 19; break PART;
        }
        l22 = l19;
        if (l21 != 3) { exit = 2; break PART; }
       }
       l12 = (l11 * 100L) + l12;
       l18 = 2;
       exit = 20; break PART;
      }
      l22 = (l19 == 3) ? 5 : l19;
      exit = 4; break PART;
     }
     if (l21 != 8) { exit = 2; break PART; }
    }
    l13 = (l11 * 10L) + l13;
    exit = 21; break PART;
   }
   if (l21 != 9) { exit = 2; break PART; }
   exit = 3; break PART;
  }
 }
 m.kept[0] = l11;
 m.kept[1] = l12;
 m.kept[2] = l13;
 m.kept[3] = l14;
 m.kept[4] = l15;
 m.kept[5] = l18;
 m.kept[6] = l20;
 m.kept[7] = l21;
 m.kept[8] = l22;
 m.kept[9] = l23;
 m.kept[10] = l24;
 m.kept[11] = l25;
 return exit;
}

static int f26_2(State m, long l11, long l12, long l13, int l18, int l19, int l20, int l21, int l22, int l23, int l24, int l25) {
 int exit = 0;
 PART: {
  L154: {
   L155: {
    L156: {
     L157: {
      L158: {
       L159: {
        L160: {
         L161: {
          L162: {
           L163: {
            L164: {
             L165: {
              L166: {
               L167: {
                L168: {
                 L169: {
                  L170: {
                   switch (l20) {
                   case 1: break L159;
                   case 2: break L158;
                   case 3: break L157;
                   case 4: break L156;
                   case 5: break L170;
                   case 6: break L169;
                   case 7: break L168;
                   case 8: break L167;
                   case 9: break L166;
                   case 10: break L165;
                   case 11: break L164;
                   case 12: break L163;
                   case 13: break L155;
                   case 14: exit = 1; break PART;
                   case 15: exit = 2; break PART;
                   case 16: exit = 3; break PART;
                   case 17: break L154;
                   case 18: exit = 4; break PART;
                   case 19: exit = 5; break PART;
                   default: break L160;
                   }
                  }
                  L171: {
                   if (((1 << l21) & 261375) != 0) { break L171; }
                   if (l21 != 8) { exit = 6; break PART; }
                   exit = 7; break PART;
                  }
                  L172: {
                   if ((l21 + -5) + Integer.MIN_VALUE < -2147483635) { break L172; }
                   l22 = 0;
                   switch (l21) {
                   case 2: exit = 8; break PART;
                   case 3: exit = 9; break PART;
                   case 4: exit = 10; break PART;
                   default: break L172;
                   }
                  }
                  l20 = 6;
                  l22 = 0;
                  switch (l21) {
                  case 5: exit = 11; break PART;
                  case 6: break L162;
                  case 7: exit = 12; break PART;
                  default: exit = 5; break PART;
                  }
                 }
                 L173: {
                  if ((l21 + -6) + Integer.MIN_VALUE < -2147483636) { break L173; }
                  l24 = 10;
                  l25 = 3;
                  l23 = l21;
                  L174: {
                   switch (l21) {
                   case 1: exit = 13; break PART;
                   case 2: case 3: case 4: break L173;
                   case 5: exit = 5; break PART;
                   default: break L174;
                   }
                  }
                  l22 = 1;
                  l18 = (l19 & 1) | 2;
                  exit = 14; break PART;
                 }
                 l22 = 1;
                 if (((1 << l21) & 261948) != 0) { exit = 5; break PART; }
                 if (l21 != 6) { exit = 12; break PART; }
                 break L162;
                }
                L175: {
                 if ((l21 + -6) + Integer.MIN_VALUE < -2147483636) { break L175; }
                 l24 = 10;
                 l23 = 4;
                 l25 = 3;
                 L176: {
                  switch (l21) {
                  case 1: exit = 13; break PART;
                  case 2: case 3: case 4: break L175;
                  case 5: exit = 5; break PART;
                  default: break L176;
                  }
                 }
                 l18 = 3;
                 l22 = (l19 & 1) ^ 3;
                 exit = 14; break PART;
                }
                l20 = 8;
                l22 = 1;
                if (((1 << l21) & 261980) != 0) { exit = 5; break PART; }
                if (l21 != 5) { exit = 12; break PART; }
                exit = 11; break PART;
               }
               l22 = 1;
               l24 = 10;
               l23 = 5;
               l25 = 3;
               L177: {
                switch (l21) {
                case 1: exit = 13; break PART;
                case 2: case 3: case 4: case 5: case 6: case 8: case 9: case 10: case 11: case 12: case 13: case 14: case 15: case 16: case 17: exit = 5; break PART;
                case 7: exit = 12; break PART;
                default: break L177;
                }
               }
               l18 = (l19 & 1) | 2;
               l22 = 5;
               exit = 14; break PART;
              }
              if (l21 != 1) { exit = 5; break PART; }
              l24 = 11;
              l25 = l18;
              l23 = l19;
              exit = 13; break PART;
             }
             L178: {
              switch (l18) {
              case 1: exit = 15; break PART;
              case 2: exit = 16; break PART;
              case 3: exit = 17; break PART;
              default: break L178;
              }
             }
             L179: {
              L180: {
               L181: {
                L182: {
                 L183: {
                  switch (l19) {
                  case 1: break L180;
                  case 2: case 3: break L182;
                  case 4: break L181;
                  case 5: break L179;
                  default: break L183;
                  }
                 }
                 l20 = 6;
                 l22 = 0;
                 switch (l21) {
                 case 5: exit = 11; break PART;
                 case 6: break L162;
                 case 7: exit = 12; break PART;
                 default: exit = 5; break PART;
                 }
                }
                l20 = 8;
                l22 = 0;
                if (((1 << l21) & 261983) != 0) { exit = 5; break PART; }
                if (l21 != 5) { exit = 12; break PART; }
                exit = 11; break PART;
               }
               if (l21 != 5) { exit = 5; break PART; }
               exit = 18; break PART;
              }
              l22 = 0;
              if (((1 << l21) & 261951) != 0) { exit = 5; break PART; }
              if (l21 != 6) { exit = 12; break PART; }
              break L162;
             }
             if (l21 != 7) { exit = 5; break PART; }
             l22 = 0;
             exit = 12; break PART;
            }
            L184: {
             L185: {
              L186: {
               L187: {
                switch (l18) {
                case 1: break L185;
                case 2: break L186;
                case 3: break L187;
                default: break L184;
                }
               }
               L188: {
                if ((l21 + -5) + Integer.MIN_VALUE < -2147483635) { break L188; }
                l22 = l19;
                L189: {
                 switch (l21) {
                 case 2: exit = 8; break PART;
                 case 3: exit = 9; break PART;
                 case 4: break L189;
                 default: break L188;
                 }
                }
                l22 = (l19 == 3) ? 5 : l19;
                exit = 10; break PART;
               }
               L190: {
                L191: {
                 L192: {
                  L193: {
                   L194: {
                    switch (l19) {
                    case 1: break L191;
                    case 2: case 3: break L193;
                    case 4: break L192;
                    case 5: break L190;
                    default: break L194;
                    }
                   }
                   l20 = 6;
                   l22 = 0;
                   switch (l21) {
                   case 5: exit = 11; break PART;
                   case 6: break L162;
                   case 7: exit = 12; break PART;
                   default: exit = 5; break PART;
                   }
                  }
                  l20 = 8;
                  l22 = 0;
                  if (((1 << l21) & 261983) != 0) { exit = 5; break PART; }
                  if (l21 != 5) { exit = 12; break PART; }
                  exit = 11; break PART;
                 }
                 if (l21 == 5) { exit = 18; break PART; }
                 exit = 5; break PART;
                }
                l22 = 0;
                if (((1 << l21) & 261951) != 0) { exit = 5; break PART; }
                if (l21 != 6) { exit = 12; break PART; }
                break L162;
               }
               if (l21 != 7) { exit = 5; break PART; }
               l22 = 0;
               exit = 12; break PART;
              }
              L195: {
               if ((l21 + -4) + Integer.MIN_VALUE < -2147483634) { break L195; }
               l22 = l19;
               switch (l21) {
               case 2: exit = 8; break PART;
               case 3: exit = 9; break PART;
               default: break L195;
               }
              }
              L196: {
               L197: {
                L198: {
                 L199: {
                  L200: {
                   switch (l19) {
                   case 1: break L197;
                   case 2: case 3: break L199;
                   case 4: break L198;
                   case 5: break L196;
                   default: break L200;
                   }
                  }
                  l20 = 6;
                  l22 = 0;
                  switch (l21) {
                  case 5: exit = 11; break PART;
                  case 6: break L162;
                  case 7: exit = 12; break PART;
                  default: exit = 5; break PART;
                  }
                 }
                 l20 = 8;
                 l22 = 0;
                 if (((1 << l21) & 261983) != 0) { exit = 5; break PART; }
                 if (l21 != 5) { exit = 12; break PART; }
                 exit = 11; break PART;
                }
                if (l21 == 5) { exit = 18; break PART; }
                exit = 5; break PART;
               }
               l22 = 0;
               if (((1 << l21) & 261951) != 0) { exit = 5; break PART; }
               if (l21 != 6) { exit = 12; break PART; }
               break L162;
              }
              if (l21 != 7) { exit = 5; break PART; }
              l22 = 0;
              exit = 12; break PART;
             }
             L201: {
              if ((l21 + -5) + Integer.MIN_VALUE < -2147483635) { break L201; }
              l22 = l19;
              switch (l21) {
              case 2: exit = 8; break PART;
              case 3: case 4: exit = 5; break PART;
              default: break L201;
              }
             }
             L202: {
              L203: {
               L204: {
                L205: {
                 L206: {
                  switch (l19) {
                  case 1: break L203;
                  case 2: case 3: break L205;
                  case 4: break L204;
                  case 5: break L202;
                  default: break L206;
                  }
                 }
                 l20 = 6;
                 l22 = 0;
                 switch (l21) {
                 case 5: exit = 11; break PART;
                 case 6: break L162;
                 case 7: exit = 12; break PART;
                 default: exit = 5; break PART;
                 }
                }
                l20 = 8;
                l22 = 0;
                if (((1 << l21) & 261983) != 0) { exit = 5; break PART; }
                if (l21 != 5) { exit = 12; break PART; }
                exit = 11; break PART;
               }
               if (l21 == 5) { exit = 18; break PART; }
               exit = 5; break PART;
              }
              l22 = 0;
              if (((1 << l21) & 261951) != 0) { exit = 5; break PART; }
              if (l21 != 6) { exit = 12; break PART; }
              break L162;
             }
             if (l21 != 7) { exit = 5; break PART; }
             l22 = 0;
             exit = 12; break PART;
            }
            L207: {
             L208: {
              L209: {
               L210: {
                L211: {
                 switch (l19) {
                 case 1: break L208;
                 case 2: case 3: break L210;
                 case 4: break L209;
                 case 5: break L207;
                 default: break L211;
                 }
                }
                l20 = 6;
                l22 = 0;
                switch (l21) {
                case 5: exit = 11; break PART;
                case 6: break L162;
                case 7: exit = 12; break PART;
                default: exit = 5; break PART;
                }
               }
               l20 = 8;
               l22 = 0;
               if (((1 << l21) & 261983) != 0) { exit = 5; break PART; }
               if (l21 != 5) { exit = 12; break PART; }
               exit = 11; break PART;
              }
              if (l21 == 5) { exit = 18; break PART; }
              exit = 5; break PART;
             }
             l22 = 0;
             if (((1 << l21) & 261951) != 0) { exit = 5; break PART; }
             if (l21 != 6) { exit = 12; break PART; }
             break L162;
            }
            if (l21 != 7) { exit = 5; break PART; }
            l22 = 0;
            exit = 12; break PART;
           }
           L212: {
            L213: {
             L214: {
              L215: {
               switch (l18) {
               case 1: break L213;
               case 2: break L214;
               case 3: break L215;
               default: break L212;
               }
              }
              L216: {
               if ((l21 + -2) + Integer.MIN_VALUE < -2147483632) { break L216; }
               l18 = 1;
               l20 = 9;
               l24 = 10;
               l25 = 2;
               l23 = l19;
               l22 = l19;
               switch (l21) {
               case 1: exit = 13; break PART;
               default: exit = 19; break PART;
               }
              }
              L217: {
               L218: {
                L219: {
                 L220: {
                  L221: {
                   switch (l19) {
                   case 1: break L218;
                   case 2: case 3: break L220;
                   case 4: break L219;
                   case 5: break L217;
                   default: break L221;
                   }
                  }
                  l20 = 6;
                  l22 = 1;
                  switch (l21 + -2) {
                  case 3: exit = 11; break PART;
                  case 4: break L162;
                  case 5: exit = 12; break PART;
                  default: exit = 5; break PART;
                  }
                 }
                 l20 = 8;
                 l22 = 1;
                 if (((1 << l21) & 261980) != 0) { exit = 5; break PART; }
                 if (l21 != 5) { exit = 12; break PART; }
                 exit = 11; break PART;
                }
                if (l21 != 5) { exit = 5; break PART; }
                exit = 20; break PART;
               }
               l22 = 1;
               if (((1 << l21) & 261948) != 0) { exit = 5; break PART; }
               if (l21 != 6) { exit = 12; break PART; }
               break L162;
              }
              if (l21 != 7) { exit = 5; break PART; }
              l22 = 1;
              exit = 12; break PART;
             }
             L222: {
              if ((l21 + -2) + Integer.MIN_VALUE < -2147483632) { break L222; }
              l20 = 9;
              l24 = 10;
              l25 = l21;
              l23 = l19;
              l22 = l19;
              l18 = l21;
              switch (l21) {
              case 1: exit = 13; break PART;
              default: exit = 19; break PART;
              }
             }
             L223: {
              L224: {
               L225: {
                L226: {
                 L227: {
                  switch (l19) {
                  case 1: break L224;
                  case 2: case 3: break L226;
                  case 4: break L225;
                  case 5: break L223;
                  default: break L227;
                  }
                 }
                 l20 = 6;
                 l22 = 1;
                 switch (l21 + -2) {
                 case 3: exit = 11; break PART;
                 case 4: break L162;
                 case 5: exit = 12; break PART;
                 default: exit = 5; break PART;
                 }
                }
                l20 = 8;
                l22 = 1;
                if (((1 << l21) & 261980) != 0) { exit = 5; break PART; }
                if (l21 != 5) { exit = 12; break PART; }
                exit = 11; break PART;
               }
               if (l21 == 5) { exit = 20; break PART; }
               exit = 5; break PART;
              }
              l22 = 1;
              if (((1 << l21) & 261948) != 0) { exit = 5; break PART; }
              if (l21 != 6) { exit = 12; break PART; }
              break L162;
             }
             if (l21 != 7) { exit = 5; break PART; }
             l22 = 1;
             exit = 12; break PART;
            }
            L228: {
             if ((l21 + -2) + Integer.MIN_VALUE < -2147483632) { break L228; }
             l24 = 10;
             l25 = 0;
             l23 = l19;
             switch (l21) {
             case 1: exit = 13; break PART;
             default: exit = 5; break PART;
             }
            }
            L229: {
             L230: {
              L231: {
               L232: {
                L233: {
                 switch (l19) {
                 case 1: break L230;
                 case 2: case 3: break L232;
                 case 4: break L231;
                 case 5: break L229;
                 default: break L233;
                 }
                }
                l20 = 6;
                l22 = 1;
                switch (l21 + -2) {
                case 3: exit = 11; break PART;
                case 4: break L162;
                case 5: exit = 12; break PART;
                default: exit = 5; break PART;
                }
               }
               l20 = 8;
               l22 = 1;
               if (((1 << l21) & 261980) != 0) { exit = 5; break PART; }
               if (l21 != 5) { exit = 12; break PART; }
               exit = 11; break PART;
              }
              if (l21 == 5) { exit = 20; break PART; }
              exit = 5; break PART;
             }
             l22 = 1;
             if (((1 << l21) & 261948) != 0) { exit = 5; break PART; }
             if (l21 == 6) { break L162; }
             exit = 12; break PART;
            }
            if (l21 != 7) { exit = 5; break PART; }
            l22 = 1;
            exit = 12; break PART;
           }
           L234: {
            L235: {
             L236: {
              L237: {
               switch (l19) {
               case 1: break L234;
               case 2: case 3: break L236;
               case 4: break L235;
               case 5: break L161;
               default: break L237;
               }
              }
              l20 = 6;
              l22 = 1;
              switch (l21) {
              case 5: exit = 11; break PART;
              case 6: break L162;
              case 7: exit = 12; break PART;
              default: exit = 5; break PART;
              }
             }
             l20 = 8;
             l22 = 1;
             if (((1 << l21) & 261983) != 0) { exit = 5; break PART; }
             if (l21 != 5) { exit = 12; break PART; }
             exit = 11; break PART;
            }
            if (l21 == 5) { exit = 20; break PART; }
            exit = 5; break PART;
           }
           l22 = 1;
           if (((1 << l21) & 261951) != 0) { exit = 5; break PART; }
           if (l21 != 6) { exit = 12; break PART; }
          }
          l13 = ((l11 + l13) + l12) * 100000000L;
          exit = 21; break PART;
         }
         if (l21 != 7) { exit = 5; break PART; }
         l22 = 1;
         exit = 12; break PART;
        }
        l24 = 5;
        l25 = 0;
        l20 = 1;
        l23 = 0;
        l22 = 0;
        l18 = 0;
        switch (l21) {
        case 1: exit = 13; break PART;
        case 2: case 3: case 4: case 5: case 6: case 7: case 8: case 9: case 10: case 12: case 13: case 14: case 15: case 16: case 17: exit = 5; break PART;
        case 11: exit = 19; break PART;
        default: exit = 22; break PART;
        }
       }
       if (l21 == 12) { exit = 23; break PART; }
       exit = 5; break PART;
      }
      if (l21 == 13) { exit = 24; break PART; }
      exit = 5; break PART;
     }
     if ((l21 + -2) + Integer.MIN_VALUE < -2147483632) { exit = 5; break PART; }
     l24 = 5;
     l25 = 0;
     l23 = 0;
     switch (l21) {
     case 1: exit = 13; break PART;
     default: exit = 22; break PART;
     }
    }
    if (l21 != 7) { exit = 5; break PART; }
    l22 = 1;
    exit = 12; break PART;
   }
   l24 = 16;
   l25 = 0;
   l20 = 19;
   l23 = 0;
   l22 = 0;
   l18 = 0;
   L238: {
    switch (l21) {
    case 1: exit = 13; break PART;
    case 2: case 3: case 4: case 5: case 6: case 7: case 8: case 9: case 11: case 12: case 13: case 14: case 15: case 16: case 17: exit = 5; break PART;
    case 10: exit = 19; break PART;
    default: break L238;
    }
   }
   l22 = l19 & 1;
   exit = 25; break PART;
  }
 }
 m.kept[0] = l13;
 m.kept[1] = l18;
 m.kept[2] = l20;
 m.kept[3] = l22;
 m.kept[4] = l23;
 m.kept[5] = l24;
 m.kept[6] = l25;
 return exit;
}

static int f26_3(State m, long l2, long l3, long l4, long l5, long l7, long l8, long l9, long l10, long l11, long l12, long l13, long l14, int l16, int l17, int l18, int l19, int l20, int l21, int l22) {
 final byte[] b = m.bytes;
 int exit = 0;
 PART: {
  L251: while (true) {
   L252: {
    if ((b[((int) (l9 = (l4 + 432L) + l5)) - 58912] & 0xff) != 1) { break L252; }
    if (l8 + Long.MIN_VALUE < (l7 = Words.get64(b, ((int) (l9 + 8L)) - 58912)) + Long.MIN_VALUE) { break L252; }
    l17 = Words.get32(b, ((int) (l9 + 20L)) - 58912);
    l16 = b[((int) (l9 + 16L)) - 58912] & 0xff;
    Words.put64(b, ((int) l4) - 58592, 0L);
    Words.put64(b, ((int) l4) - 58584, 0L);
    Words.put64(b, ((int) l4) - 58576, 0L);
    Words.put64(b, ((int) l4) - 58568, 0L);
    Words.put64(b, ((int) l4) - 58560, 0L);
    Words.put64(b, ((int) l4) - 58552, 0L);
    Words.put64(b, ((int) l4) - 58544, 0L);
    Words.put64(b, ((int) l4) - 58888, 0L);
    Words.put64(b, ((int) l4) - 58880, 0L);
    Words.put64(b, ((int) l4) - 58872, 0L);
    Words.put64(b, ((int) l4) - 58864, 0L);
    Words.put64(b, ((int) l4) - 58656, 0L);
    Words.put64(b, ((int) l4) - 58648, 0L);
    Words.put64(b, ((int) l4) - 58640, 0L);
    Words.put64(b, ((int) l4) - 58632, 0L);
    Words.put64(b, ((int) l4) - 58624, 0L);
    Words.put64(b, ((int) l4) - 58616, 0L);
    Words.put64(b, ((int) l4) - 58608, 0L);
    Words.put64(b, ((int) l4) - 57480, 0L);
    Words.put64(b, ((int) l4) - 57488, 0L);
    Words.put64(b, ((int) l4) - 57472, 1L);
    Words.put64(b, ((int) l4) - 57464, 0L);
    f18(m, l4 + 320L, l4 + 1424L, l2, l3, l7);
    l9 = Words.get64(b, ((int) l4) - 58544);
    l10 = Words.get64(b, ((int) l4) - 58552);
    l11 = Words.get64(b, ((int) l4) - 58568);
    l18 = b[((int) l4) - 58584] & 0xff;
    l19 = b[((int) l4) - 58592] & 0xff;
    l20 = b[((int) l4) - 58576] & 0xff;
    Words.put64(b, ((int) l4) - 58528, 0L);
    Words.put64(b, ((int) l4) - 58520, 0L);
    Words.put64(b, ((int) l4) - 58512, 0L);
    Words.put64(b, ((int) l4) - 58504, 0L);
    Words.put64(b, ((int) l4) - 58496, 0L);
    Words.put64(b, ((int) l4) - 58696, 0L);
    Words.put64(b, ((int) l4) - 58688, 0L);
    Words.put64(b, ((int) l4) - 58848, 0L);
    Words.put64(b, ((int) l4) - 58840, 0L);
    Words.put64(b, ((int) l4) - 58832, 0L);
    Words.put64(b, ((int) l4) - 58824, 0L);
    Words.put64(b, ((int) l4) - 58816, 0L);
    Words.put64(b, ((int) l4) - 58800, 0L);
    Words.put64(b, ((int) l4) - 58792, 0L);
    l13 = (l20 & 0xffffffffL) & 255L;
    L253: {
     L254: {
      L255: {
       L256: {
        switch (l16) {
        case 1: break L255;
        case 2: break L254;
        default: break L256;
        }
       }
       Words.put64(b, ((int) l4) - 58672, l11);
       Words.put64(b, ((int) l4) - 58680, l13);
       b[((int) l4) - 58688] = (byte) l18;
       b[((int) l4) - 58696] = (byte) l19;
       f23(m, l4 + 384L, l4 + 216L, l17);
       if ((b[((int) l4) - 58528] & 0xff) != 1) { break L252; }
       l19 = b[((int) l4) - 58520] & 0xff;
       l18 = b[((int) l4) - 58512] & 0xff;
       l20 = b[((int) l4) - 58504] & 0xff;
       l11 = Words.get64(b, ((int) l4) - 58496);
       break L253;
      }
      if (l9 == 0L) { break L252; }
      L257: {
       L258: {
        if ((l20 = (int) b[((int) l10) - 58912]) <= -1) { break L258; }
        l14 = 1L;
        break L257;
       }
       L259: {
        if (l20 + Integer.MIN_VALUE >= 2147483616) { break L259; }
        l14 = 2L;
        break L257;
       }
       l14 = (l20 + Integer.MIN_VALUE < 2147483632) ? 3L : 4L;
      }
      Words.put64(b, ((int) l4) - 58776, l11);
      Words.put64(b, ((int) l4) - 58784, l13);
      b[((int) l4) - 58792] = (byte) l18;
      b[((int) l4) - 58800] = (byte) l19;
      f23(m, l4 + 64L, l4 + 112L, l17);
      if ((b[((int) l4) - 58848] & 0xff) != 1) { break L252; }
      l10 = l10 + l14;
      l9 = l9 - l14;
      l19 = b[((int) l4) - 58840] & 0xff;
      l18 = b[((int) l4) - 58832] & 0xff;
      l20 = b[((int) l4) - 58824] & 0xff;
      l11 = Words.get64(b, ((int) l4) - 58816);
      break L253;
     }
     if (l9 == 0L) { break L252; }
     L260: {
      L261: {
       if ((l22 = (int) b[((int) l10) - 58912]) <= -1) { break L261; }
       l13 = 1L;
       break L260;
      }
      L262: {
       if (l22 + Integer.MIN_VALUE >= 2147483616) { break L262; }
       l13 = 2L;
       break L260;
      }
      l13 = (l22 + Integer.MIN_VALUE < 2147483632) ? 3L : 4L;
     }
     l9 = l9 - l13;
     l10 = l10 + l13;
    }
    Words.put64(b, ((int) l4) - 58864, l11);
    b[((int) l4) - 58880] = (byte) l18;
    b[((int) l4) - 58888] = (byte) l19;
    Words.put64(b, ((int) l4) - 58872, (l20 & 0xffffffffL) & 255L);
    f18(m, l4 + 256L, l4 + 24L, l10, l9, -1L);
    L263: {
     if (Words.get64(b, ((int) l4) - 58608) != 0L) { break L263; }
     l20 = 1;
     if (l12 != 0L) { exit = 1; break PART; }
     if (((1 << (b[((int) l4) - 58648] & 0xff)) & 1475) != 0) { break L252; }
     exit = 1; break PART;
    }
    if (l12 == 0L) { break L252; }
    l9 = (Words.get64(b, ((int) l4) - 58560) + ((l16 != 2) ? 1L : 0L)) + Words.get64(b, ((int) l4) - 58624);
    l10 = 2L;
    L264: {
     L265: {
      L266: {
       switch (l16) {
       case 1: break L266;
       case 2: break L265;
       default: break L264;
       }
      }
      l10 = 1L;
      break L264;
     }
     l10 = (l7 == l8) ? 1L : 0L;
    }
    l20 = 1;
    if ((l10 = l10 + l8) + Long.MIN_VALUE < l9 + Long.MIN_VALUE) { exit = 1; break PART; }
    if (l9 != l10) { break L252; }
    l18 = (l19 = (int) b[((int) (l9 = Words.get64(b, ((int) l4) - 58616))) - 58912]) & 255;
    L267: {
     if (l19 > -1) { break L267; }
     l22 = (b[((int) l9) - 58911] & 0xff) & 63;
     L268: {
      if (l19 + Integer.MIN_VALUE > 2147483615) { break L268; }
      l18 = ((l18 << 6) & 1984) | l22;
      break L267;
     }
     l21 = (b[((int) l9) - 58910] & 0xff) & 63;
     L269: {
      if (l19 + Integer.MIN_VALUE > 2147483631) { break L269; }
      l18 = ((l22 << 6) | ((l18 << 12) & 61440)) | l21;
      break L267;
     }
     l18 = ((l21 << 6) | ((l22 << 12) | ((l18 << 18) & 1835008))) | ((b[((int) l9) - 58909] & 0xff) & 63);
    }
    Words.put32(b, ((int) l4) - 58592, l18);
    if (f29(m, 66564L, 29L, l4 + 320L) == 0) { exit = 1; break PART; }
   }
   if ((l5 = l5 + 24L) != 336L) { continue L251; }
   break L251;
  }
 }
 m.kept[0] = l5;
 m.kept[1] = l7;
 m.kept[2] = l9;
 m.kept[3] = l10;
 m.kept[4] = l11;
 m.kept[5] = l13;
 m.kept[6] = l14;
 m.kept[7] = l16;
 m.kept[8] = l17;
 m.kept[9] = l18;
 m.kept[10] = l19;
 m.kept[11] = l20;
 m.kept[12] = l21;
 m.kept[13] = l22;
 return exit;
}

static int f26_4(State m, long l2, long l3, long l4, long l5, long l7, long l8, long l9, long l10, long l11, long l13, int l16, int l17, int l18, int l19, int l20, int l21, int l22, int l24) {
 final byte[] b = m.bytes;
 int exit = 0;
 PART: {
  L272: while (true) {
   L273: {
    if ((b[((int) (l9 = (l4 + 432L) + l5)) - 58912] & 0xff) != 1) { break L273; }
    if (l8 + Long.MIN_VALUE < (l7 = Words.get64(b, ((int) (l9 + 8L)) - 58912)) + Long.MIN_VALUE) { break L273; }
    l17 = Words.get32(b, ((int) (l9 + 20L)) - 58912);
    l16 = b[((int) (l9 + 16L)) - 58912] & 0xff;
    Words.put64(b, ((int) l4) - 58656, 0L);
    Words.put64(b, ((int) l4) - 58648, 0L);
    Words.put64(b, ((int) l4) - 58640, 0L);
    Words.put64(b, ((int) l4) - 58632, 0L);
    Words.put64(b, ((int) l4) - 58624, 0L);
    Words.put64(b, ((int) l4) - 58888, 0L);
    Words.put16(b, ((int) l4) - 58880, (short) 0);
    Words.put64(b, ((int) l4) - 58760, 0L);
    Words.put64(b, ((int) l4) - 58752, 0L);
    Words.put64(b, ((int) l4) - 58744, 0L);
    Words.put64(b, ((int) l4) - 58736, 0L);
    Words.put64(b, ((int) l4) - 58728, 0L);
    Words.put64(b, ((int) l4) - 57488, 0L);
    Words.put16(b, ((int) l4) - 57480, (short) 0);
    f16(m, l4 + 256L, l4 + 1424L, l2, l3, l7);
    l9 = Words.get64(b, ((int) l4) - 58624);
    l10 = Words.get64(b, ((int) l4) - 58632);
    l20 = b[((int) l4) - 58648] & 0xff;
    l18 = b[((int) l4) - 58649] & 0xff;
    l19 = b[((int) l4) - 58650] & 0xff;
    l22 = Words.get32(b, ((int) l4) - 58654);
    l21 = b[((int) l4) - 58656] & 0xff;
    Words.put64(b, ((int) l4) - 58528, 0L);
    Words.put32(b, ((int) l4) - 58520, 0);
    Words.put16(b, ((int) l4) - 58688, (short) 0);
    Words.put64(b, ((int) l4) - 58848, 0L);
    Words.put32(b, ((int) l4) - 58840, 0);
    Words.put16(b, ((int) l4) - 58792, (short) 0);
    L274: {
     L275: {
      L276: {
       L277: {
        switch (l16) {
        case 1: break L276;
        case 2: break L275;
        default: break L277;
        }
       }
       b[((int) l4) - 58688] = (byte) l20;
       b[((int) l4) - 58689] = (byte) l18;
       b[((int) l4) - 58690] = (byte) l19;
       Words.put32(b, ((int) l4) - 58694, l22);
       Words.put16(b, ((int) l4) - 58696, (short) l21);
       f22(m, l4 + 384L, l4 + 216L, l17);
       if ((b[((int) l4) - 58528] & 0xff) != 1) { break L273; }
       l22 = Words.get32(b, ((int) l4) - 58524);
       l19 = b[((int) l4) - 58520] & 0xff;
       l18 = b[((int) l4) - 58519] & 0xff;
       l20 = b[((int) l4) - 58518] & 0xff;
       l21 = b[((int) l4) - 58526] & 0xff;
       break L274;
      }
      if (l9 == 0L) { break L273; }
      L278: {
       L279: {
        if ((l24 = (int) b[((int) l10) - 58912]) <= -1) { break L279; }
        l13 = 1L;
        break L278;
       }
       L280: {
        if (l24 + Integer.MIN_VALUE >= 2147483616) { break L280; }
        l13 = 2L;
        break L278;
       }
       l13 = (l24 + Integer.MIN_VALUE < 2147483632) ? 3L : 4L;
      }
      b[((int) l4) - 58792] = (byte) l20;
      b[((int) l4) - 58793] = (byte) l18;
      b[((int) l4) - 58794] = (byte) l19;
      Words.put32(b, ((int) l4) - 58798, l22);
      Words.put16(b, ((int) l4) - 58800, (short) l21);
      f22(m, l4 + 64L, l4 + 112L, l17);
      if ((b[((int) l4) - 58848] & 0xff) != 1) { break L273; }
      l10 = l10 + l13;
      l9 = l9 - l13;
      l22 = Words.get32(b, ((int) l4) - 58844);
      l19 = b[((int) l4) - 58840] & 0xff;
      l18 = b[((int) l4) - 58839] & 0xff;
      l20 = b[((int) l4) - 58838] & 0xff;
      l21 = b[((int) l4) - 58846] & 0xff;
      break L274;
     }
     if (l9 == 0L) { break L273; }
     L281: {
      L282: {
       if ((l24 = (int) b[((int) l10) - 58912]) <= -1) { break L282; }
       l13 = 1L;
       break L281;
      }
      L283: {
       if (l24 + Integer.MIN_VALUE >= 2147483616) { break L283; }
       l13 = 2L;
       break L281;
      }
      l13 = (l24 + Integer.MIN_VALUE < 2147483632) ? 3L : 4L;
     }
     l9 = l9 - l13;
     l10 = l10 + l13;
    }
    b[((int) l4) - 58880] = (byte) l20;
    b[((int) l4) - 58881] = (byte) l18;
    b[((int) l4) - 58882] = (byte) l19;
    Words.put32(b, ((int) l4) - 58886, l22);
    Words.put16(b, ((int) l4) - 58888, (short) (l21 & 255));
    f16(m, l4 + 152L, l4 + 24L, l10, l9, -1L);
    L284: {
     if (Words.get64(b, ((int) l4) - 58728) != 0L) { break L284; }
     l20 = 1;
     if (l11 != 0L) { exit = 1; break PART; }
     if (((b[((int) l4) - 58760] & 0xff) & 255) != 3) { break L273; }
     exit = 1; break PART;
    }
    if (l11 == 0L) { break L273; }
    l9 = (Words.get64(b, ((int) l4) - 58640) + ((l16 != 2) ? 1L : 0L)) + Words.get64(b, ((int) l4) - 58744);
    l10 = 2L;
    L285: {
     L286: {
      L287: {
       switch (l16) {
       case 1: break L287;
       case 2: break L286;
       default: break L285;
       }
      }
      l10 = 1L;
      break L285;
     }
     l10 = (l7 == l8) ? 1L : 0L;
    }
    l20 = 1;
    if ((l10 = l10 + l8) + Long.MIN_VALUE < l9 + Long.MIN_VALUE) { exit = 1; break PART; }
    if (l9 != l10) { break L273; }
    l18 = (l19 = (int) b[((int) (l9 = Words.get64(b, ((int) l4) - 58736))) - 58912]) & 255;
    L288: {
     if (l19 > -1) { break L288; }
     l22 = (b[((int) l9) - 58911] & 0xff) & 63;
     L289: {
      if (l19 + Integer.MIN_VALUE > 2147483615) { break L289; }
      l18 = ((l18 << 6) & 1984) | l22;
      break L288;
     }
     l21 = (b[((int) l9) - 58910] & 0xff) & 63;
     L290: {
      if (l19 + Integer.MIN_VALUE > 2147483631) { break L290; }
      l18 = ((l22 << 6) | ((l18 << 12) & 61440)) | l21;
      break L288;
     }
     l18 = ((l21 << 6) | ((l22 << 12) | ((l18 << 18) & 1835008))) | ((b[((int) l9) - 58909] & 0xff) & 63);
    }
    Words.put32(b, ((int) l4) - 58656, l18);
    if (f29(m, 66492L, 18L, l4 + 256L) == 0) { exit = 1; break PART; }
   }
   if ((l5 = l5 + 24L) == 336L) { exit = 2; break PART; }
   continue L272;
  }
 }
 m.kept[0] = l5;
 m.kept[1] = l7;
 m.kept[2] = l9;
 m.kept[3] = l10;
 m.kept[4] = l13;
 m.kept[5] = l16;
 m.kept[6] = l17;
 m.kept[7] = l18;
 m.kept[8] = l19;
 m.kept[9] = l20;
 m.kept[10] = l21;
 m.kept[11] = l22;
 m.kept[12] = l24;
 return exit;
}

static int f26_5(State m, long l2, long l3, long l4, long l5, long l6, long l7, long l8, long l9, long l10, long l11, long l12, long l13, long l14, int l16, int l17, int l18, int l19, int l20, int l21, int l22) {
 final byte[] b = m.bytes;
 int exit = 0;
 PART: {
  L294: while (true) {
   L295: {
    if ((b[((int) (l9 = (l4 + 432L) + l5)) - 58912] & 0xff) != 1) { break L295; }
    if (l11 + Long.MIN_VALUE < (l7 = Words.get64(b, ((int) (l9 + 8L)) - 58912)) + Long.MIN_VALUE) { break L295; }
    l17 = Words.get32(b, ((int) (l9 + 20L)) - 58912);
    l16 = b[((int) (l9 + 16L)) - 58912] & 0xff;
    Words.put64(b, ((int) l4) - 58592, 0L);
    Words.put64(b, ((int) l4) - 58584, 0L);
    Words.put64(b, ((int) l4) - 58576, 0L);
    Words.put64(b, ((int) l4) - 58568, 0L);
    Words.put64(b, ((int) l4) - 58560, 0L);
    Words.put64(b, ((int) l4) - 58552, 0L);
    Words.put64(b, ((int) l4) - 58544, 0L);
    Words.put64(b, ((int) l4) - 58536, 0L);
    Words.put64(b, ((int) l4) - 58656, 0L);
    Words.put64(b, ((int) l4) - 58648, 0L);
    Words.put64(b, ((int) l4) - 58640, 0L);
    Words.put64(b, ((int) l4) - 58632, 0L);
    Words.put64(b, ((int) l4) - 58624, 0L);
    Words.put64(b, ((int) l4) - 58616, 0L);
    Words.put64(b, ((int) l4) - 58608, 0L);
    Words.put64(b, ((int) l4) - 58600, 0L);
    b[((int) l4) - 58694] = (byte) 1;
    Words.put16(b, ((int) l4) - 58696, (short) 1);
    b[((int) l13) - 58908] = (byte) 0;
    Words.put32(b, ((int) l13) - 58912, 0);
    Words.put64(b, ((int) l8) - 58912, 0L);
    Words.put64(b, ((int) l8) - 58904, 0L);
    Words.put64(b, ((int) l8) - 58896, 0L);
    Words.put64(b, ((int) l8) - 58889, 0L);
    b[((int) l4) - 58688] = (byte) 3;
    f14(m, l4 + 320L, l4 + 216L, l2, l3, l7);
    l9 = Words.get64(b, ((int) l4) - 58536);
    l10 = Words.get64(b, ((int) l4) - 58544);
    L296: {
     L297: {
      L298: {
       L299: {
        L300: {
         L301: {
          L302: {
           L303: {
            L304: {
             L305: {
              switch (l16) {
              case 1: break L304;
              case 2: break L303;
              default: break L305;
              }
             }
             Words.put64(b, ((int) l4) - 58488, 0L);
             Words.put64(b, ((int) l4) - 58496, 0L);
             Words.put64(b, ((int) l4) - 58504, 0L);
             Words.put64(b, ((int) l4) - 58512, 0L);
             Words.put64(b, ((int) l4) - 58520, 0L);
             Words.put64(b, ((int) l4) - 58528, 0L);
             L306: {
              if (l17 + Integer.MIN_VALUE > -2147483521) { break L306; }
              if ((l17 + -9) + Integer.MIN_VALUE < -2147483643) { break L297; }
              if (l17 != 32) { break L298; }
              break L297;
             }
             if ((l17 + -8192) + Integer.MIN_VALUE < -2147483637) { break L297; }
             L307: {
              if (l17 > 8231) { break L307; }
              if (l17 == 133) { break L297; }
              if (l17 == 160) { break L297; }
              if (l17 != 5760) { break L298; }
              break L297;
             }
             if ((l20 = l17 + -8232) + Integer.MIN_VALUE > -2147483593) { break L299; }
             if (((1L << (l20 & 0xffffffffL)) & 36028797018964099L) == 0L) { break L299; }
             break L297;
            }
            if (l9 == 0L) { break L295; }
            L308: {
             L309: {
              if ((l20 = (int) b[((int) l10) - 58912]) <= -1) { break L309; }
              l14 = 1L;
              break L308;
             }
             L310: {
              if (l20 + Integer.MIN_VALUE >= 2147483616) { break L310; }
              l14 = 2L;
              break L308;
             }
             l14 = (l20 + Integer.MIN_VALUE < 2147483632) ? 3L : 4L;
            }
            Words.put64(b, ((int) l4) - 58488, 0L);
            Words.put64(b, ((int) l4) - 58496, 0L);
            Words.put64(b, ((int) l4) - 58504, 0L);
            Words.put64(b, ((int) l4) - 58512, 0L);
            Words.put64(b, ((int) l4) - 58520, 0L);
            Words.put64(b, ((int) l4) - 58528, 0L);
            l9 = l9 - l14;
            l10 = l10 + l14;
            L311: {
             if (l17 + Integer.MIN_VALUE > -2147483521) { break L311; }
             if ((l17 + -9) + Integer.MIN_VALUE < -2147483643) { break L300; }
             if (l17 != 32) { break L301; }
             break L300;
            }
            if ((l17 + -8192) + Integer.MIN_VALUE < -2147483637) { break L300; }
            L312: {
             if (l17 > 8231) { break L312; }
             if (l17 == 133) { break L300; }
             if (l17 == 160) { break L300; }
             if (l17 != 5760) { break L301; }
             break L300;
            }
            if ((l20 = l17 + -8232) + Integer.MIN_VALUE > -2147483593) { break L302; }
            if (((1L << (l20 & 0xffffffffL)) & 36028797018964099L) == 0L) { break L302; }
            break L300;
           }
           if (l9 == 0L) { break L295; }
           L313: {
            L314: {
             if ((l20 = (int) b[((int) l10) - 58912]) <= -1) { break L314; }
             l14 = 1L;
             break L313;
            }
            L315: {
             if (l20 + Integer.MIN_VALUE >= 2147483616) { break L315; }
             l14 = 2L;
             break L313;
            }
            l14 = (l20 + Integer.MIN_VALUE < 2147483632) ? 3L : 4L;
           }
           Words.put64(b, ((int) l4) - 58816, Words.get64(b, ((int) l4) - 58560));
           Words.put64(b, ((int) l4) - 58824, Words.get64(b, ((int) l4) - 58568));
           Words.put64(b, ((int) l4) - 58832, Words.get64(b, ((int) l4) - 58576));
           Words.put64(b, ((int) l4) - 58840, Words.get64(b, ((int) l4) - 58584));
           Words.put64(b, ((int) l4) - 58848, Words.get64(b, ((int) l4) - 58592));
           l9 = l9 - l14;
           l10 = l10 + l14;
           break L296;
          }
          if (l17 == 12288) { break L300; }
         }
         f21(m, l4 + 384L, l4 + 320L, l17);
         if ((b[((int) l4) - 58528] & 0xff) != 1) { break L295; }
         Words.put64(b, ((int) l4) - 58816, Words.get64(b, ((int) l6) - 58880));
         Words.put64(b, ((int) l4) - 58824, Words.get64(b, ((int) l6) - 58888));
         Words.put64(b, ((int) l4) - 58832, Words.get64(b, ((int) l6) - 58896));
         Words.put64(b, ((int) l4) - 58840, Words.get64(b, ((int) l6) - 58904));
         Words.put64(b, ((int) l4) - 58848, Words.get64(b, ((int) l6) - 58912));
         break L296;
        }
        Words.put64(b, ((int) l4) - 58816, Words.get64(b, ((int) l4) - 58560));
        Words.put64(b, ((int) l4) - 58824, Words.get64(b, ((int) l4) - 58568));
        Words.put64(b, ((int) l4) - 58832, Words.get64(b, ((int) l4) - 58576));
        Words.put64(b, ((int) l4) - 58840, Words.get64(b, ((int) l4) - 58584));
        Words.put64(b, ((int) l4) - 58848, Words.get64(b, ((int) l4) - 58592));
        break L296;
       }
       if (l17 == 12288) { break L297; }
      }
      f21(m, l4 + 384L, l4 + 320L, l17);
      if ((b[((int) l4) - 58528] & 0xff) != 1) { break L295; }
      Words.put64(b, ((int) l4) - 58816, Words.get64(b, ((int) l6) - 58880));
      Words.put64(b, ((int) l4) - 58824, Words.get64(b, ((int) l6) - 58888));
      Words.put64(b, ((int) l4) - 58832, Words.get64(b, ((int) l6) - 58896));
      Words.put64(b, ((int) l4) - 58840, Words.get64(b, ((int) l6) - 58904));
      Words.put64(b, ((int) l4) - 58848, Words.get64(b, ((int) l6) - 58912));
      break L296;
     }
     Words.put64(b, ((int) l4) - 58816, Words.get64(b, ((int) l4) - 58560));
     Words.put64(b, ((int) l4) - 58824, Words.get64(b, ((int) l4) - 58568));
     Words.put64(b, ((int) l4) - 58832, Words.get64(b, ((int) l4) - 58576));
     Words.put64(b, ((int) l4) - 58840, Words.get64(b, ((int) l4) - 58584));
     Words.put64(b, ((int) l4) - 58848, Words.get64(b, ((int) l4) - 58592));
    }
    f14(m, l4 + 256L, l4 + 64L, l10, l9, -1L);
    L316: {
     if (Words.get64(b, ((int) l4) - 58600) != 0L) { break L316; }
     l20 = 1;
     if (l12 != 0L) { exit = 1; break PART; }
     if ((l18 = b[((int) l4) - 58648] & 0xff) + Integer.MIN_VALUE < -2147483631) { break L295; }
     switch (l18 + -17) {
     case 1: break L295;
     default: exit = 1; break PART;
     }
    }
    if (l12 == 0L) { break L295; }
    l9 = (Words.get64(b, ((int) l4) - 58552) + ((l16 != 2) ? 1L : 0L)) + Words.get64(b, ((int) l4) - 58616);
    l10 = 2L;
    L317: {
     L318: {
      L319: {
       switch (l16) {
       case 1: break L319;
       case 2: break L318;
       default: break L317;
       }
      }
      l10 = 1L;
      break L317;
     }
     l10 = (l7 == l11) ? 1L : 0L;
    }
    l20 = 1;
    if ((l10 = l10 + l11) + Long.MIN_VALUE < l9 + Long.MIN_VALUE) { exit = 1; break PART; }
    if (l9 != l10) { break L295; }
    l18 = (l19 = (int) b[((int) (l9 = Words.get64(b, ((int) l4) - 58608))) - 58912]) & 255;
    L320: {
     if (l19 > -1) { break L320; }
     l22 = (b[((int) l9) - 58911] & 0xff) & 63;
     L321: {
      if (l19 + Integer.MIN_VALUE > 2147483615) { break L321; }
      l18 = ((l18 << 6) & 1984) | l22;
      break L320;
     }
     l21 = (b[((int) l9) - 58910] & 0xff) & 63;
     L322: {
      if (l19 + Integer.MIN_VALUE > 2147483631) { break L322; }
      l18 = ((l22 << 6) | ((l18 << 12) & 61440)) | l21;
      break L320;
     }
     l18 = ((l21 << 6) | ((l22 << 12) | ((l18 << 18) & 1835008))) | ((b[((int) l9) - 58909] & 0xff) & 63);
    }
    Words.put32(b, ((int) l4) - 58592, l18);
    if (f29(m, 66048L, 47L, l4 + 320L) == 0) { exit = 1; break PART; }
   }
   if ((l5 = l5 + 24L) == 336L) { exit = 2; break PART; }
   continue L294;
  }
 }
 m.kept[0] = l5;
 m.kept[1] = l7;
 m.kept[2] = l9;
 m.kept[3] = l10;
 m.kept[4] = l14;
 m.kept[5] = l16;
 m.kept[6] = l17;
 m.kept[7] = l18;
 m.kept[8] = l19;
 m.kept[9] = l20;
 m.kept[10] = l21;
 m.kept[11] = l22;
 return exit;
}

static int f26_6(State m, long l2, long l3, long l4, long l5, long l6, long l7, long l8, long l9, long l10, long l11, long l12, long l13, long l14, int l16, int l17, int l18, int l19, int l20, int l21, int l22) {
 final byte[] b = m.bytes;
 int exit = 0;
 PART: {
  L326: while (true) {
   L327: {
    if ((b[((int) (l9 = (l4 + 432L) + l5)) - 58912] & 0xff) != 1) { break L327; }
    if (l11 + Long.MIN_VALUE < (l7 = Words.get64(b, ((int) (l9 + 8L)) - 58912)) + Long.MIN_VALUE) { break L327; }
    l17 = Words.get32(b, ((int) (l9 + 20L)) - 58912);
    l16 = b[((int) (l9 + 16L)) - 58912] & 0xff;
    Words.put64(b, ((int) l4) - 58592, 0L);
    Words.put64(b, ((int) l4) - 58584, 0L);
    Words.put64(b, ((int) l4) - 58576, 0L);
    Words.put64(b, ((int) l4) - 58568, 0L);
    Words.put64(b, ((int) l4) - 58560, 0L);
    Words.put64(b, ((int) l4) - 58552, 0L);
    Words.put64(b, ((int) l4) - 58544, 0L);
    Words.put64(b, ((int) l4) - 58536, 0L);
    Words.put64(b, ((int) l4) - 58656, 0L);
    Words.put64(b, ((int) l4) - 58648, 0L);
    Words.put64(b, ((int) l4) - 58640, 0L);
    Words.put64(b, ((int) l4) - 58632, 0L);
    Words.put64(b, ((int) l4) - 58624, 0L);
    Words.put64(b, ((int) l4) - 58616, 0L);
    Words.put64(b, ((int) l4) - 58608, 0L);
    Words.put64(b, ((int) l4) - 58600, 0L);
    b[((int) l4) - 58694] = (byte) 1;
    Words.put16(b, ((int) l4) - 58696, (short) 257);
    b[((int) l13) - 58908] = (byte) 0;
    Words.put32(b, ((int) l13) - 58912, 0);
    Words.put64(b, ((int) l8) - 58912, 0L);
    Words.put64(b, ((int) l8) - 58904, 0L);
    Words.put64(b, ((int) l8) - 58896, 0L);
    Words.put64(b, ((int) l8) - 58889, 0L);
    b[((int) l4) - 58688] = (byte) 3;
    f12(m, l4 + 320L, l4 + 216L, l2, l3, l7);
    l9 = Words.get64(b, ((int) l4) - 58536);
    l10 = Words.get64(b, ((int) l4) - 58544);
    L328: {
     L329: {
      L330: {
       L331: {
        L332: {
         L333: {
          L334: {
           L335: {
            L336: {
             L337: {
              switch (l16) {
              case 1: break L336;
              case 2: break L335;
              default: break L337;
              }
             }
             Words.put64(b, ((int) l4) - 58488, 0L);
             Words.put64(b, ((int) l4) - 58496, 0L);
             Words.put64(b, ((int) l4) - 58504, 0L);
             Words.put64(b, ((int) l4) - 58512, 0L);
             Words.put64(b, ((int) l4) - 58520, 0L);
             Words.put64(b, ((int) l4) - 58528, 0L);
             L338: {
              if (l17 + Integer.MIN_VALUE > -2147483521) { break L338; }
              if ((l17 + -9) + Integer.MIN_VALUE < -2147483643) { break L329; }
              if (l17 != 32) { break L330; }
              break L329;
             }
             if ((l17 + -8192) + Integer.MIN_VALUE < -2147483637) { break L329; }
             L339: {
              if (l17 > 8231) { break L339; }
              if (l17 == 133) { break L329; }
              if (l17 == 160) { break L329; }
              if (l17 != 5760) { break L330; }
              break L329;
             }
             if ((l20 = l17 + -8232) + Integer.MIN_VALUE > -2147483593) { break L331; }
             if (((1L << (l20 & 0xffffffffL)) & 36028797018964099L) == 0L) { break L331; }
             break L329;
            }
            if (l9 == 0L) { break L327; }
            L340: {
             L341: {
              if ((l20 = (int) b[((int) l10) - 58912]) <= -1) { break L341; }
              l14 = 1L;
              break L340;
             }
             L342: {
              if (l20 + Integer.MIN_VALUE >= 2147483616) { break L342; }
              l14 = 2L;
              break L340;
             }
             l14 = (l20 + Integer.MIN_VALUE < 2147483632) ? 3L : 4L;
            }
            Words.put64(b, ((int) l4) - 58488, 0L);
            Words.put64(b, ((int) l4) - 58496, 0L);
            Words.put64(b, ((int) l4) - 58504, 0L);
            Words.put64(b, ((int) l4) - 58512, 0L);
            Words.put64(b, ((int) l4) - 58520, 0L);
            Words.put64(b, ((int) l4) - 58528, 0L);
            l9 = l9 - l14;
            l10 = l10 + l14;
            L343: {
             if (l17 + Integer.MIN_VALUE > -2147483521) { break L343; }
             if ((l17 + -9) + Integer.MIN_VALUE < -2147483643) { break L332; }
             if (l17 != 32) { break L333; }
             break L332;
            }
            if ((l17 + -8192) + Integer.MIN_VALUE < -2147483637) { break L332; }
            L344: {
             if (l17 > 8231) { break L344; }
             if (l17 == 133) { break L332; }
             if (l17 == 160) { break L332; }
             if (l17 != 5760) { break L333; }
             break L332;
            }
            if ((l20 = l17 + -8232) + Integer.MIN_VALUE > -2147483593) { break L334; }
            if (((1L << (l20 & 0xffffffffL)) & 36028797018964099L) == 0L) { break L334; }
            break L332;
           }
           if (l9 == 0L) { break L327; }
           L345: {
            L346: {
             if ((l20 = (int) b[((int) l10) - 58912]) <= -1) { break L346; }
             l14 = 1L;
             break L345;
            }
            L347: {
             if (l20 + Integer.MIN_VALUE >= 2147483616) { break L347; }
             l14 = 2L;
             break L345;
            }
            l14 = (l20 + Integer.MIN_VALUE < 2147483632) ? 3L : 4L;
           }
           Words.put64(b, ((int) l4) - 58816, Words.get64(b, ((int) l4) - 58560));
           Words.put64(b, ((int) l4) - 58824, Words.get64(b, ((int) l4) - 58568));
           Words.put64(b, ((int) l4) - 58832, Words.get64(b, ((int) l4) - 58576));
           Words.put64(b, ((int) l4) - 58840, Words.get64(b, ((int) l4) - 58584));
           Words.put64(b, ((int) l4) - 58848, Words.get64(b, ((int) l4) - 58592));
           l9 = l9 - l14;
           l10 = l10 + l14;
           break L328;
          }
          if (l17 == 12288) { break L332; }
         }
         f21(m, l4 + 384L, l4 + 320L, l17);
         if ((b[((int) l4) - 58528] & 0xff) != 1) { break L327; }
         Words.put64(b, ((int) l4) - 58816, Words.get64(b, ((int) l6) - 58880));
         Words.put64(b, ((int) l4) - 58824, Words.get64(b, ((int) l6) - 58888));
         Words.put64(b, ((int) l4) - 58832, Words.get64(b, ((int) l6) - 58896));
         Words.put64(b, ((int) l4) - 58840, Words.get64(b, ((int) l6) - 58904));
         Words.put64(b, ((int) l4) - 58848, Words.get64(b, ((int) l6) - 58912));
         break L328;
        }
        Words.put64(b, ((int) l4) - 58816, Words.get64(b, ((int) l4) - 58560));
        Words.put64(b, ((int) l4) - 58824, Words.get64(b, ((int) l4) - 58568));
        Words.put64(b, ((int) l4) - 58832, Words.get64(b, ((int) l4) - 58576));
        Words.put64(b, ((int) l4) - 58840, Words.get64(b, ((int) l4) - 58584));
        Words.put64(b, ((int) l4) - 58848, Words.get64(b, ((int) l4) - 58592));
        break L328;
       }
       if (l17 == 12288) { break L329; }
      }
      f21(m, l4 + 384L, l4 + 320L, l17);
      if ((b[((int) l4) - 58528] & 0xff) != 1) { break L327; }
      Words.put64(b, ((int) l4) - 58816, Words.get64(b, ((int) l6) - 58880));
      Words.put64(b, ((int) l4) - 58824, Words.get64(b, ((int) l6) - 58888));
      Words.put64(b, ((int) l4) - 58832, Words.get64(b, ((int) l6) - 58896));
      Words.put64(b, ((int) l4) - 58840, Words.get64(b, ((int) l6) - 58904));
      Words.put64(b, ((int) l4) - 58848, Words.get64(b, ((int) l6) - 58912));
      break L328;
     }
     Words.put64(b, ((int) l4) - 58816, Words.get64(b, ((int) l4) - 58560));
     Words.put64(b, ((int) l4) - 58824, Words.get64(b, ((int) l4) - 58568));
     Words.put64(b, ((int) l4) - 58832, Words.get64(b, ((int) l4) - 58576));
     Words.put64(b, ((int) l4) - 58840, Words.get64(b, ((int) l4) - 58584));
     Words.put64(b, ((int) l4) - 58848, Words.get64(b, ((int) l4) - 58592));
    }
    f12(m, l4 + 256L, l4 + 64L, l10, l9, -1L);
    L348: {
     if (Words.get64(b, ((int) l4) - 58600) != 0L) { break L348; }
     l20 = 1;
     if (l12 != 0L) { exit = 1; break PART; }
     if ((l18 = b[((int) l4) - 58648] & 0xff) + Integer.MIN_VALUE < -2147483631) { break L327; }
     switch (l18 + -17) {
     case 1: break L327;
     default: exit = 1; break PART;
     }
    }
    if (l12 == 0L) { break L327; }
    l9 = (Words.get64(b, ((int) l4) - 58552) + ((l16 != 2) ? 1L : 0L)) + Words.get64(b, ((int) l4) - 58616);
    l10 = 2L;
    L349: {
     L350: {
      L351: {
       switch (l16) {
       case 1: break L351;
       case 2: break L350;
       default: break L349;
       }
      }
      l10 = 1L;
      break L349;
     }
     l10 = (l7 == l11) ? 1L : 0L;
    }
    l20 = 1;
    if ((l10 = l10 + l11) + Long.MIN_VALUE < l9 + Long.MIN_VALUE) { exit = 1; break PART; }
    if (l9 != l10) { break L327; }
    l18 = (l19 = (int) b[((int) (l9 = Words.get64(b, ((int) l4) - 58608))) - 58912]) & 255;
    L352: {
     if (l19 > -1) { break L352; }
     l22 = (b[((int) l9) - 58911] & 0xff) & 63;
     L353: {
      if (l19 + Integer.MIN_VALUE > 2147483615) { break L353; }
      l18 = ((l18 << 6) & 1984) | l22;
      break L352;
     }
     l21 = (b[((int) l9) - 58910] & 0xff) & 63;
     L354: {
      if (l19 + Integer.MIN_VALUE > 2147483631) { break L354; }
      l18 = ((l22 << 6) | ((l18 << 12) & 61440)) | l21;
      break L352;
     }
     l18 = ((l21 << 6) | ((l22 << 12) | ((l18 << 18) & 1835008))) | ((b[((int) l9) - 58909] & 0xff) & 63);
    }
    Words.put32(b, ((int) l4) - 58592, l18);
    if (f29(m, 66048L, 47L, l4 + 320L) == 0) { exit = 1; break PART; }
   }
   if ((l5 = l5 + 24L) == 336L) { exit = 2; break PART; }
   continue L326;
  }
 }
 m.kept[0] = l5;
 m.kept[1] = l7;
 m.kept[2] = l9;
 m.kept[3] = l10;
 m.kept[4] = l14;
 m.kept[5] = l16;
 m.kept[6] = l17;
 m.kept[7] = l18;
 m.kept[8] = l19;
 m.kept[9] = l20;
 m.kept[10] = l21;
 m.kept[11] = l22;
 return exit;
}

static int f26_7(State m, long l2, long l3, long l4, long l5, long l7, long l8, long l9, long l10, long l11, long l12, long l13, long l14, int l16, int l17, int l18, int l19, int l20, int l22) {
 final byte[] b = m.bytes;
 int exit = 0;
 PART: {
  L358: while (true) {
   L359: {
    if ((b[((int) (l9 = (l4 + 432L) + l5)) - 58912] & 0xff) != 1) { break L359; }
    if (l8 + Long.MIN_VALUE < (l7 = Words.get64(b, ((int) (l9 + 8L)) - 58912)) + Long.MIN_VALUE) { break L359; }
    l17 = Words.get32(b, ((int) (l9 + 20L)) - 58912);
    l16 = b[((int) (l9 + 16L)) - 58912] & 0xff;
    Words.put64(b, ((int) l4) - 58592, 0L);
    Words.put64(b, ((int) l4) - 58584, 0L);
    Words.put64(b, ((int) l4) - 58576, 0L);
    Words.put64(b, ((int) l4) - 58568, 0L);
    Words.put64(b, ((int) l4) - 58560, 0L);
    Words.put64(b, ((int) l4) - 58552, 0L);
    Words.put64(b, ((int) l4) - 58544, 0L);
    Words.put64(b, ((int) l4) - 58536, 0L);
    Words.put64(b, ((int) l4) - 58656, 0L);
    Words.put64(b, ((int) l4) - 58648, 0L);
    Words.put64(b, ((int) l4) - 58640, 0L);
    Words.put64(b, ((int) l4) - 58632, 0L);
    Words.put64(b, ((int) l4) - 58624, 0L);
    Words.put64(b, ((int) l4) - 58616, 0L);
    Words.put64(b, ((int) l4) - 58608, 0L);
    Words.put64(b, ((int) l4) - 58600, 0L);
    Words.put64(b, ((int) l4) - 58800, 0L);
    Words.put64(b, ((int) l4) - 58792, 0L);
    Words.put64(b, ((int) l4) - 58784, 0L);
    Words.put64(b, ((int) l4) - 58776, 0L);
    Words.put64(b, ((int) l4) - 58768, 0L);
    f10(m, l4 + 320L, l4 + 112L, l2, l3, l7);
    l9 = Words.get64(b, ((int) l4) - 58536);
    l10 = Words.get64(b, ((int) l4) - 58544);
    Words.put64(b, ((int) l4) - 58528, 0L);
    Words.put64(b, ((int) l4) - 58520, 0L);
    Words.put64(b, ((int) l4) - 58512, 0L);
    Words.put64(b, ((int) l4) - 58504, 0L);
    Words.put64(b, ((int) l4) - 58496, 0L);
    Words.put64(b, ((int) l4) - 58488, 0L);
    Words.put64(b, ((int) l4) - 58848, 0L);
    Words.put64(b, ((int) l4) - 58840, 0L);
    Words.put64(b, ((int) l4) - 58832, 0L);
    Words.put64(b, ((int) l4) - 58824, 0L);
    Words.put64(b, ((int) l4) - 58816, 0L);
    Words.put64(b, ((int) l4) - 58808, 0L);
    L360: {
     L361: {
      L362: {
       L363: {
        switch (l16) {
        case 1: break L362;
        case 2: break L361;
        default: break L363;
        }
       }
       f20(m, l4 + 384L, l4 + 320L, l17);
       if ((b[((int) l4) - 58528] & 0xff) != 1) { break L359; }
       Words.put64(b, ((int) l4) - 58664, Words.get64(b, ((int) l11) - 58880));
       Words.put64(b, ((int) l4) - 58672, Words.get64(b, ((int) l11) - 58888));
       Words.put64(b, ((int) l4) - 58680, Words.get64(b, ((int) l11) - 58896));
       Words.put64(b, ((int) l4) - 58688, Words.get64(b, ((int) l11) - 58904));
       Words.put64(b, ((int) l4) - 58696, Words.get64(b, ((int) l11) - 58912));
       break L360;
      }
      if (l9 == 0L) { break L359; }
      L364: {
       L365: {
        if ((l20 = (int) b[((int) l10) - 58912]) <= -1) { break L365; }
        l14 = 1L;
        break L364;
       }
       L366: {
        if (l20 + Integer.MIN_VALUE >= 2147483616) { break L366; }
        l14 = 2L;
        break L364;
       }
       l14 = (l20 + Integer.MIN_VALUE < 2147483632) ? 3L : 4L;
      }
      f20(m, l4 + 64L, l4 + 320L, l17);
      if ((b[((int) l4) - 58848] & 0xff) != 1) { break L359; }
      Words.put64(b, ((int) l4) - 58664, Words.get64(b, ((int) l13) - 58880));
      Words.put64(b, ((int) l4) - 58672, Words.get64(b, ((int) l13) - 58888));
      Words.put64(b, ((int) l4) - 58680, Words.get64(b, ((int) l13) - 58896));
      Words.put64(b, ((int) l4) - 58688, Words.get64(b, ((int) l13) - 58904));
      Words.put64(b, ((int) l4) - 58696, Words.get64(b, ((int) l13) - 58912));
      l10 = l10 + l14;
      l9 = l9 - l14;
      break L360;
     }
     if (l9 == 0L) { break L359; }
     L367: {
      L368: {
       if ((l20 = (int) b[((int) l10) - 58912]) <= -1) { break L368; }
       l14 = 1L;
       break L367;
      }
      L369: {
       if (l20 + Integer.MIN_VALUE >= 2147483616) { break L369; }
       l14 = 2L;
       break L367;
      }
      l14 = (l20 + Integer.MIN_VALUE < 2147483632) ? 3L : 4L;
     }
     Words.put64(b, ((int) l4) - 58664, Words.get64(b, ((int) l4) - 58560));
     Words.put64(b, ((int) l4) - 58672, Words.get64(b, ((int) l4) - 58568));
     Words.put64(b, ((int) l4) - 58680, Words.get64(b, ((int) l4) - 58576));
     Words.put64(b, ((int) l4) - 58688, Words.get64(b, ((int) l4) - 58584));
     Words.put64(b, ((int) l4) - 58696, Words.get64(b, ((int) l4) - 58592));
     l9 = l9 - l14;
     l10 = l10 + l14;
    }
    f10(m, l4 + 256L, l4 + 216L, l10, l9, -1L);
    L370: {
     L371: {
      L372: {
       L373: {
        if (Words.get64(b, ((int) l4) - 58600) != 0L) { break L373; }
        if (l12 != 0L) { break L372; }
        if ((l9 = Words.get64(b, ((int) l4) - 58655) >>> 56L) + Long.MIN_VALUE < -9223372036854775791L) { break L359; }
        switch (((int) l9) + -17) {
        case 1: break L359;
        default: break L372;
        }
       }
       if (l12 == 0L) { break L359; }
       l9 = (Words.get64(b, ((int) l4) - 58552) + ((l16 != 2) ? 1L : 0L)) + Words.get64(b, ((int) l4) - 58616);
       l10 = 2L;
       L374: {
        L375: {
         L376: {
          switch (l16) {
          case 1: break L376;
          case 2: break L375;
          default: break L374;
          }
         }
         l10 = 1L;
         break L374;
        }
        l10 = (l7 == l8) ? 1L : 0L;
       }
       if ((l10 = l10 + l8) + Long.MIN_VALUE < l9 + Long.MIN_VALUE) { break L372; }
       if (l9 != l10) { break L359; }
       l20 = (l18 = (int) b[((int) (l9 = Words.get64(b, ((int) l4) - 58608))) - 58912]) & 255;
       if (l18 > -1) { break L370; }
       l19 = (b[((int) l9) - 58911] & 0xff) & 63;
       L377: {
        if (l18 + Integer.MIN_VALUE > 2147483615) { break L377; }
        l20 = ((l20 << 6) & 1984) | l19;
        break L370;
       }
       l22 = (b[((int) l9) - 58910] & 0xff) & 63;
       if (l18 + Integer.MIN_VALUE > 2147483631) { break L371; }
       l20 = ((l19 << 6) | ((l20 << 12) & 61440)) | l22;
       break L370;
      }
      l20 = 1;
      exit = 1; break PART;
     }
     l20 = ((l22 << 6) | ((l19 << 12) | ((l20 << 18) & 1835008))) | ((b[((int) l9) - 58909] & 0xff) & 63);
    }
    Words.put32(b, ((int) l4) - 58592, l20);
    if (f29(m, 66048L, 34L, l4 + 320L) != 0) { break L359; }
    l20 = 1;
    exit = 1; break PART;
   }
   if ((l5 = l5 + 24L) != 336L) { continue L358; }
   break L358;
  }
 }
 m.kept[0] = l5;
 m.kept[1] = l7;
 m.kept[2] = l9;
 m.kept[3] = l10;
 m.kept[4] = l14;
 m.kept[5] = l16;
 m.kept[6] = l17;
 m.kept[7] = l18;
 m.kept[8] = l19;
 m.kept[9] = l20;
 m.kept[10] = l22;
 return exit;
}

static int f26_8(State m, long l0, int l1, long l2, long l3, long l4, long l5, long l7, long l8, long l9, int l16, int l17, int l20) {
 final byte[] b = m.bytes;
 int exit = 0;
 PART: {
  L379: {
   L380: {
    L381: {
     if (l20 == 0) { break L381; }
     if ((l1 & 255) != 4) { break L380; }
     if (l16 != 0) { break L380; }
     if (l17 != 38646) { break L380; }
     f30(m, l4 + 8L, l2, l3, l7);
     l20 = f31(m, l5 = Words.get64(b, ((int) l4) - 58904), l9 = Words.get64(b, ((int) l4) - 58896), 66808L, 3L);
     L382: {
      L383: {
       if ((l1 = (l3 + Long.MIN_VALUE < -9223372036854775793L) ? 1 : 0) != 0) { break L383; }
       if (l20 == 0) { break L383; }
       if (Words.get64(b, ((int) ((l8 = l2 + l3) + -15L)) - 58912) != -8365856802762875674L) { break L383; }
       if (Words.get64(b, ((int) (l8 + -8L)) - 58912) == -6514484650975052149L) { break L382; }
      }
      l20 = f31(m, l5, l9, 66811L, 3L);
      if (l1 != 0) { break L380; }
      if (l20 == 0) { break L380; }
      if (Words.get64(b, ((int) ((l5 = l2 + l3) + -15L)) - 58912) != -8365854603739620122L) { break L380; }
      if (Words.get64(b, ((int) (l5 + -8L)) - 58912) != -6514484650975052149L) { break L380; }
     }
     Words.put64(b, ((int) l0) - 58896, 0L);
     Words.put64(b, ((int) l0) - 58904, 0L);
     Words.put64(b, ((int) l0) - 58912, 0L);
     break L379;
    }
    Words.put64(b, ((int) l0) - 58896, 0L);
    Words.put64(b, ((int) l0) - 58904, 0L);
    Words.put64(b, ((int) l0) - 58912, 0L);
    break L379;
   }
   Words.put64(b, ((int) l0) - 58912, 1L);
   Words.put32(b, ((int) (l0 + 20L)) - 58912, l17);
   Words.put32(b, ((int) (l0 + 16L)) - 58912, l16);
   Words.put64(b, ((int) (l0 + 8L)) - 58912, l7);
  }
 }
 m.kept[0] = l1;
 m.kept[1] = l5;
 m.kept[2] = l8;
 m.kept[3] = l9;
 m.kept[4] = l20;
 return exit;
}

static void f26(State m, long l0, int l1, long l2, long l3) {
 final byte[] b = m.bytes;
 long l4 = 0;
 long l5 = 0;
 long l6 = 0;
 long l7 = 0;
 long l8 = 0;
 long l9 = 0;
 long l10 = 0;
 long l11 = 0;
 long l12 = 0;
 long l13 = 0;
 long l14 = 0;
 long l15 = 0;
 int l16 = 0;
 int l17 = 0;
 int l18 = 0;
 int l19 = 0;
 int l20 = 0;
 int l21 = 0;
 int l22 = 0;
 int l23 = 0;
 int l24 = 0;
 int l25 = 0;
 m.g0 = l4 = m.g0 - 1456L;
 L1: {
  L2: {
   L3: {
    L4: {
     L5: {
      L6: {
       L7: {
        L8: {
         if ((l4 = l4) < 16L) { break L8; }
         L9: {
          switch ((int) ((l1 & 0xffffffffL) & 255L)) {
          case 1: break L3;
          case 2: break L4;
          case 3: break L5;
          case 4: break L6;
          case 5: break L7;
          default: break L9;
          }
         }
         l5 = 0L;
         Words.put64(b, ((int) l4) - 58760, 0L);
         Words.put64(b, ((int) l4) - 58752, 0L);
         Words.put64(b, ((int) l4) - 58744, 0L);
         Words.put64(b, ((int) l4) - 58736, 0L);
         Words.put64(b, ((int) l4) - 58728, 0L);
         Words.put64(b, ((int) l4) - 58720, 0L);
         Words.put64(b, ((int) l4) - 58712, 0L);
         Words.put64(b, ((int) l4) - 58696, 0L);
         Words.put64(b, ((int) l4) - 57576, 0L);
         Words.put64(b, ((int) l4) - 57568, 0L);
         Words.put64(b, ((int) l4) - 57560, 0L);
         Words.put64(b, ((int) l4) - 57552, 0L);
         Words.put64(b, ((int) l4) - 57544, 0L);
         Words.put64(b, ((int) l4) - 57536, 0L);
         Words.put64(b, ((int) l4) - 57528, 0L);
         m.fill((int) (l4 + 1136L), 0, (int) 200L);
         Words.put64(b, ((int) l4) - 58800, 0L);
         m.fill((int) (l4 + 768L), 0, (int) 336L);
         Words.put64(b, ((int) l4) - 58672, 0L);
         Words.put64(b, ((int) l4) - 58680, 0L);
         Words.put64(b, ((int) l4) - 58688, 0L);
         f8(m, l4 + 152L, l4 + 216L, l2, l3, -1L);
         l6 = Words.get64(b, ((int) l4) - 58712);
         L10: {
          if ((l16 = b[((int) l4) - 58760] & 0xff) + Integer.MIN_VALUE < -2147483631) { break L10; }
          L11: {
           switch (l16 + -17) {
           case 1: break L10;
           default: break L11;
           }
          }
          if (l6 == 0L) { break L2; }
         }
         b[((int) l4) - 58800] = (byte) l16;
         Words.put16(b, ((int) l4) - 58799, (short) (Words.get16(b, ((int) l4) - 58759) & 0xffff));
         Words.put64(b, ((int) l4) - 58792, Words.get64(b, ((int) (l7 = l4 + 160L)) - 58912));
         Words.put64(b, ((int) l4) - 58784, Words.get64(b, ((int) l7) - 58904));
         Words.put64(b, ((int) l4) - 58776, Words.get64(b, ((int) l7) - 58896));
         l8 = Words.get64(b, ((int) l4) - 58728);
         f9(m, l4 + 1136L, l4 + 112L);
         f27(m, l4 + 1336L, l2, l3, l8, l4 + 1136L, 66048L, 32L);
         f28(m, l4 + 768L, l4 + 1336L);
         m.copy((int) (l4 + 432L), (int) (l4 + 768L), (int) 336L);
         L12: while (true) {
          L13: {
           if ((b[((int) (l9 = (l4 + 432L) + l5)) - 58912] & 0xff) != 1) { break L13; }
           if (l8 + Long.MIN_VALUE < (l7 = Words.get64(b, ((int) (l9 + 8L)) - 58912)) + Long.MIN_VALUE) { break L13; }
           l17 = Words.get32(b, ((int) (l9 + 20L)) - 58912);
           l16 = b[((int) (l9 + 16L)) - 58912] & 0xff;
           Words.put64(b, ((int) l4) - 58592, 0L);
           Words.put64(b, ((int) l4) - 58584, 0L);
           Words.put64(b, ((int) l4) - 58576, 0L);
           Words.put64(b, ((int) l4) - 58568, 0L);
           Words.put64(b, ((int) l4) - 58560, 0L);
           Words.put64(b, ((int) l4) - 58552, 0L);
           Words.put64(b, ((int) l4) - 58544, 0L);
           Words.put64(b, ((int) l4) - 58528, 0L);
           Words.put64(b, ((int) l4) - 58656, 0L);
           Words.put64(b, ((int) l4) - 58648, 0L);
           Words.put64(b, ((int) l4) - 58640, 0L);
           Words.put64(b, ((int) l4) - 58632, 0L);
           Words.put64(b, ((int) l4) - 58624, 0L);
           Words.put64(b, ((int) l4) - 58616, 0L);
           Words.put64(b, ((int) l4) - 58608, 0L);
           Words.put64(b, ((int) l4) - 58848, 0L);
           Words.put64(b, ((int) l4) - 58840, 0L);
           Words.put64(b, ((int) l4) - 58832, 0L);
           Words.put64(b, ((int) l4) - 58824, 0L);
           f8(m, l4 + 320L, l4 + 64L, l2, l3, l7);
           l9 = Words.get64(b, ((int) l4) - 58544);
           l10 = Words.get64(b, ((int) l4) - 58552);
           l11 = Words.get64(b, ((int) l4) - 58568);
           l12 = Words.get64(b, ((int) l4) - 58576);
           l13 = Words.get64(b, ((int) l4) - 58584);
           l18 = b[((int) l4) - 58590] & 0xff;
           l19 = b[((int) l4) - 58591] & 0xff;
           l20 = b[((int) l4) - 58592] & 0xff;
           L14: {
            L15: {
             L16: {
              L17: {
               L18: {
                L19: {
                 L20: {
                  L21: {
                   L22: {
                    L23: {
                     L24: {
                      L25: {
                       L26: {
                        L27: {
                         L28: {
                          L29: {
                           L30: {
                            L31: {
                             L32: {
                              L33: {
                               L34: {
                                L35: {
                                 L36: {
                                  L37: {
                                   L38: {
                                    L39: {
                                     L40: {
                                      L41: {
                                       L42: {
                                        L43: {
                                         L44: {
                                          L45: {
                                           L46: {
                                            L47: {
                                             L48: {
                                              L49: {
                                               L50: {
                                                L51: {
                                                 L52: {
                                                  L53: {
                                                   final int x150 = f26_1(m, l11, l12, l13, l14, l15, l16, l17, l18, l19, l20, l21, l22, l23, l24, l25);
                                                   l11 = m.kept[0];
                                                   l12 = m.kept[1];
                                                   l13 = m.kept[2];
                                                   l14 = m.kept[3];
                                                   l15 = m.kept[4];
                                                   l18 = (int) m.kept[5];
                                                   l20 = (int) m.kept[6];
                                                   l21 = (int) m.kept[7];
                                                   l22 = (int) m.kept[8];
                                                   l23 = (int) m.kept[9];
                                                   l24 = (int) m.kept[10];
                                                   l25 = (int) m.kept[11];
                                                   switch (x150) {
                                                   case 1: break L39;
                                                   case 2: break L13;
                                                   case 3: break L31;
                                                   case 4: break L28;
                                                   case 5: break L17;
                                                   case 6: break L21;
                                                   case 7: break L37;
                                                   case 8: break L36;
                                                   case 9: break L38;
                                                   case 10: break L18;
                                                   case 11: break L14;
                                                   case 12: break L19;
                                                   case 13: break L22;
                                                   case 14: break L49;
                                                   case 15: break L23;
                                                   case 16: break L24;
                                                   case 17: break L25;
                                                   case 18: break L53;
                                                   case 19: break L27;
                                                   case 20: break L26;
                                                   case 21: break L30;
                                                   }
                                                   if (l9 == 0L) { break L13; }
                                                   L151: {
                                                    L152: {
                                                     if ((l22 = (int) b[((int) l10) - 58912]) <= -1) { break L152; }
                                                     l15 = 1L;
                                                     break L151;
                                                    }
                                                    L153: {
                                                     if (l22 + Integer.MIN_VALUE >= 2147483616) { break L153; }
                                                     l15 = 2L;
                                                     break L151;
                                                    }
                                                    l15 = (l22 + Integer.MIN_VALUE < 2147483632) ? 3L : 4L;
                                                   }
                                                   if (Words.get32(b, State.far((int) (l14 = (((l17 * 3227) >>> 7) & 0xffffffffL) & 504L), 65536)) != l17) { break L13; }
                                                   if (((b[((int) (l14 + 65540L)) - 58912] & 0xff) & 255) != 1) { break L13; }
                                                   l9 = l9 - l15;
                                                   l10 = l10 + l15;
                                                   l15 = b[((int) (l14 + 65542L)) - 58912] & 0xffL;
                                                   l21 = b[((int) (l14 + 65541L)) - 58912] & 0xff;
                                                   final int x239 = f26_2(m, l11, l12, l13, l18, l19, l20, l21, l22, l23, l24, l25);
                                                   l13 = m.kept[0];
                                                   l18 = (int) m.kept[1];
                                                   l20 = (int) m.kept[2];
                                                   l22 = (int) m.kept[3];
                                                   l23 = (int) m.kept[4];
                                                   l24 = (int) m.kept[5];
                                                   l25 = (int) m.kept[6];
                                                   switch (x239) {
                                                   case 1: break L52;
                                                   case 2: break L50;
                                                   case 3: break L42;
                                                   case 4: break L40;
                                                   case 5: break L13;
                                                   case 6: break L31;
                                                   case 7: break L41;
                                                   case 8: break L47;
                                                   case 9: break L45;
                                                   case 10: break L43;
                                                   case 11: break L32;
                                                   case 12: break L35;
                                                   case 13: break L51;
                                                   case 14: break L36;
                                                   case 15: break L48;
                                                   case 16: break L46;
                                                   case 17: break L44;
                                                   case 18: break L33;
                                                   case 19: break L14;
                                                   case 20: break L34;
                                                   case 21: break L22;
                                                   case 22: break L49;
                                                   case 23: break L23;
                                                   case 24: break L24;
                                                   case 25: break L25;
                                                   }
                                                   l24 = 18;
                                                   l25 = 0;
                                                   l20 = 19;
                                                   if (((1 << l21) & 261117) != 0) { break L13; }
                                                   l23 = 0;
                                                   if (l21 == 1) { break L51; }
                                                  }
                                                  l22 = 0;
                                                  l18 = 0;
                                                  break L14;
                                                 }
                                                 if (l21 != 1) { break L13; }
                                                 l23 = l19 & 1;
                                                 l24 = 15;
                                                 l25 = 0;
                                                }
                                                l11 = l15;
                                                l20 = l24;
                                                l22 = l23;
                                                l18 = l25;
                                                break L14;
                                               }
                                               if ((l19 & 1) == 0) { break L40; }
                                               if (((1 << l21) & 261375) != 0) { break L13; }
                                               if (l21 != 8) { break L31; }
                                               break L41;
                                              }
                                              l22 = 0;
                                              l20 = 4;
                                              l18 = 0;
                                              break L14;
                                             }
                                             l22 = l19;
                                             if (l21 != 2) { break L13; }
                                            }
                                            l12 = (l11 * 10L) + l12;
                                            break L27;
                                           }
                                           l22 = l19;
                                           if (l21 != 3) { break L13; }
                                          }
                                          l12 = (l11 * 100L) + l12;
                                          l18 = 2;
                                          break L26;
                                         }
                                         l22 = l19;
                                         if (l21 != 4) { break L13; }
                                        }
                                        l12 = (l11 * 1000L) + l12;
                                        l18 = 3;
                                        break L26;
                                       }
                                       if (l21 != 8) { break L13; }
                                      }
                                      l13 = (l11 * 10L) + l13;
                                      break L30;
                                     }
                                     if (l21 == 9) { break L31; }
                                     break L13;
                                    }
                                    if (l9 == 0L) { break L13; }
                                    L240: {
                                     L241: {
                                      if ((l22 = (int) b[((int) l10) - 58912]) <= -1) { break L241; }
                                      l14 = 1L;
                                      break L240;
                                     }
                                     L242: {
                                      if (l22 + Integer.MIN_VALUE >= 2147483616) { break L242; }
                                      l14 = 2L;
                                      break L240;
                                     }
                                     l14 = (l22 + Integer.MIN_VALUE < 2147483632) ? 3L : 4L;
                                    }
                                    l9 = l9 - l14;
                                    l10 = l10 + l14;
                                    l22 = l19;
                                    break L14;
                                   }
                                   l22 = l19;
                                   if (l21 == 4) { break L28; }
                                   break L13;
                                  }
                                  l22 = 1;
                                  l18 = (l19 & 1) | 2;
                                 }
                                 l20 = 9;
                                 break L14;
                                }
                                l13 = ((l11 + l13) + l12) * 100L;
                                break L20;
                               }
                               l20 = 8;
                               l22 = 1;
                               break L32;
                              }
                              l20 = 8;
                              l22 = 0;
                             }
                             l13 = ((l11 + l12) * 10000L) + l13;
                             break L16;
                            }
                            l13 = l11 + l13;
                            l22 = 0;
                            l20 = 19;
                            break L29;
                           }
                           l22 = 0;
                           l20 = 17;
                          }
                          l11 = 0L;
                          l18 = 0;
                          break L14;
                         }
                         l12 = (l11 * 1000L) + l12;
                         l18 = 3;
                         break L26;
                        }
                        l18 = 1;
                       }
                       l20 = 12;
                       l11 = 0L;
                       break L14;
                      }
                      l20 = 14;
                      l18 = 0;
                      break L14;
                     }
                     l22 = 0;
                     l20 = 3;
                     l18 = 0;
                     break L14;
                    }
                    l22 = 0;
                    l20 = 2;
                    l18 = 0;
                    break L14;
                   }
                   l18 = 0;
                   l20 = 7;
                   break L15;
                  }
                  l13 = ((l11 + l13) + l12) * 100L;
                 }
                 l18 = 0;
                 l20 = 13;
                 break L15;
                }
                l22 = 1;
                l20 = 8;
                break L17;
               }
               l22 = 0;
               l20 = 8;
              }
              l13 = ((l11 + l12) * 10000L) + l13;
             }
             l18 = 0;
            }
            l12 = 0L;
            l11 = 0L;
           }
           Words.put64(b, ((int) l4) - 58504, l11);
           Words.put64(b, ((int) l4) - 58512, l12);
           Words.put64(b, ((int) l4) - 58520, l13);
           b[((int) l4) - 58526] = (byte) l18;
           b[((int) l4) - 58527] = (byte) l22;
           b[((int) l4) - 58528] = (byte) l20;
           f8(m, l4 + 256L, l4 + 384L, l10, l9, -1L);
           L243: {
            if (Words.get64(b, ((int) l4) - 58608) != 0L) { break L243; }
            l20 = 1;
            if (l6 != 0L) { break L1; }
            if ((l18 = b[((int) l4) - 58656] & 0xff) + Integer.MIN_VALUE < -2147483631) { break L13; }
            switch (l18 + -17) {
            case 1: break L13;
            default: break L1;
            }
           }
           if (l6 == 0L) { break L13; }
           l9 = (Words.get64(b, ((int) l4) - 58560) + ((l16 != 2) ? 1L : 0L)) + Words.get64(b, ((int) l4) - 58624);
           l10 = 2L;
           L244: {
            L245: {
             L246: {
              switch (l16) {
              case 1: break L246;
              case 2: break L245;
              default: break L244;
              }
             }
             l10 = 1L;
             break L244;
            }
            l10 = (l7 == l8) ? 1L : 0L;
           }
           l20 = 1;
           if ((l10 = l10 + l8) + Long.MIN_VALUE < l9 + Long.MIN_VALUE) { break L1; }
           if (l9 != l10) { break L13; }
           l18 = (l19 = (int) b[((int) (l9 = Words.get64(b, ((int) l4) - 58616))) - 58912]) & 255;
           L247: {
            if (l19 > -1) { break L247; }
            l22 = (b[((int) l9) - 58911] & 0xff) & 63;
            L248: {
             if (l19 + Integer.MIN_VALUE > 2147483615) { break L248; }
             l18 = ((l18 << 6) & 1984) | l22;
             break L247;
            }
            l21 = (b[((int) l9) - 58910] & 0xff) & 63;
            L249: {
             if (l19 + Integer.MIN_VALUE > 2147483631) { break L249; }
             l18 = ((l22 << 6) | ((l18 << 12) & 61440)) | l21;
             break L247;
            }
            l18 = ((l21 << 6) | ((l22 << 12) | ((l18 << 18) & 1835008))) | ((b[((int) l9) - 58909] & 0xff) & 63);
           }
           Words.put32(b, ((int) l4) - 58592, l18);
           if (f29(m, 66048L, 32L, l4 + 320L) == 0) { break L1; }
          }
          if ((l5 = l5 + 24L) != 336L) { continue L12; }
          break L2;
         }
        }
        throw State.trap();
       }
       Words.put64(b, ((int) l4) - 58760, 0L);
       Words.put64(b, ((int) l4) - 58752, 0L);
       Words.put64(b, ((int) l4) - 58744, 0L);
       Words.put64(b, ((int) l4) - 58736, 0L);
       Words.put64(b, ((int) l4) - 58728, 0L);
       Words.put64(b, ((int) l4) - 58720, 0L);
       Words.put64(b, ((int) l4) - 58712, 0L);
       Words.put64(b, ((int) l4) - 57520, 0L);
       Words.put64(b, ((int) l4) - 57512, 0L);
       Words.put64(b, ((int) l4) - 57576, 0L);
       Words.put64(b, ((int) l4) - 57568, 0L);
       Words.put64(b, ((int) l4) - 57560, 0L);
       Words.put64(b, ((int) l4) - 57552, 0L);
       Words.put64(b, ((int) l4) - 57544, 0L);
       Words.put64(b, ((int) l4) - 57536, 0L);
       Words.put64(b, ((int) l4) - 57528, 0L);
       m.fill((int) (l4 + 1136L), 0, (int) 200L);
       Words.put64(b, ((int) l4) - 57800, 0L);
       Words.put64(b, ((int) l4) - 57808, 0L);
       m.fill((int) (l4 + 768L), 0, (int) 336L);
       Words.put64(b, ((int) l4) - 57496, 0L);
       Words.put64(b, ((int) l4) - 57504, 1L);
       f18(m, l4 + 152L, l4 + 1392L, l2, l3, -1L);
       l7 = Words.get64(b, ((int) l4) - 58736);
       l5 = b[((int) l4) - 58744] & 0xffL;
       l16 = b[((int) l4) - 58760] & 0xff;
       l12 = Words.get64(b, ((int) l4) - 58712);
       L250: {
        if (((1 << (l17 = b[((int) l4) - 58752] & 0xff)) & 6716) == 0) { break L250; }
        if (l12 == 0L) { break L2; }
       }
       Words.put64(b, ((int) l4) - 57784, l7);
       Words.put64(b, ((int) l4) - 57792, l5);
       b[((int) l4) - 57800] = (byte) l17;
       b[((int) l4) - 57808] = (byte) l16;
       l8 = Words.get64(b, ((int) l4) - 58728);
       f19(m, l4 + 1136L, l4 + 1104L);
       f27(m, l4 + 1336L, l2, l3, l8, l4 + 1136L, 66564L, 29L);
       f28(m, l4 + 768L, l4 + 1336L);
       m.copy((int) (l4 + 432L), (int) (l4 + 768L), (int) 336L);
       l5 = 0L;
       final int x270 = f26_3(m, l2, l3, l4, l5, l7, l8, l9, l10, l11, l12, l13, l14, l16, l17, l18, l19, l20, l21, l22);
       l5 = m.kept[0];
       l7 = m.kept[1];
       l9 = m.kept[2];
       l10 = m.kept[3];
       l11 = m.kept[4];
       l13 = m.kept[5];
       l14 = m.kept[6];
       l16 = (int) m.kept[7];
       l17 = (int) m.kept[8];
       l18 = (int) m.kept[9];
       l19 = (int) m.kept[10];
       l20 = (int) m.kept[11];
       l21 = (int) m.kept[12];
       l22 = (int) m.kept[13];
       switch (x270) {
       case 1: break L1;
       }
       l17 = 0;
       l7 = 0L;
       l20 = 0;
       l16 = 0;
       break L1;
      }
      l7 = 0L;
      Words.put64(b, ((int) l4) - 57576, 0L);
      Words.put64(b, ((int) l4) - 57568, 0L);
      Words.put64(b, ((int) l4) - 57560, 0L);
      Words.put64(b, ((int) l4) - 57552, 0L);
      Words.put64(b, ((int) l4) - 57544, 0L);
      l20 = 0;
      Words.put16(b, ((int) l4) - 57512, (short) 0);
      Words.put64(b, ((int) l4) - 58592, 0L);
      Words.put64(b, ((int) l4) - 58584, 0L);
      Words.put64(b, ((int) l4) - 58576, 0L);
      Words.put64(b, ((int) l4) - 58568, 0L);
      Words.put64(b, ((int) l4) - 58560, 0L);
      Words.put64(b, ((int) l4) - 58552, 0L);
      Words.put64(b, ((int) l4) - 58544, 0L);
      m.fill((int) (l4 + 1136L), 0, (int) 200L);
      Words.put16(b, ((int) l4) - 57800, (short) 0);
      m.fill((int) (l4 + 768L), 0, (int) 336L);
      b[((int) l4) - 57512] = (byte) 0;
      Words.put64(b, ((int) l4) - 57520, 0L);
      f16(m, l4 + 1336L, l4 + 1392L, l2, l3, -1L);
      l18 = b[((int) l4) - 57576] & 0xff;
      L271: {
       if ((l11 = Words.get64(b, ((int) l4) - 57544)) != 0L) { break L271; }
       l16 = 0;
       l17 = 0;
       if ((l18 & 255) == 3) { break L1; }
      }
      Words.put32(b, ((int) l4) - 57806, Words.get32(b, ((int) l4) - 57574));
      b[((int) l4) - 57802] = (byte) (b[((int) l4) - 57570] & 0xff);
      Words.put16(b, ((int) l4) - 57801, (short) (Words.get16(b, ((int) l4) - 57569) & 0xffff));
      Words.put16(b, ((int) l4) - 57808, (short) (l18 & 255));
      l8 = Words.get64(b, ((int) l4) - 57560);
      f17(m, l4 + 1136L, l4 + 1104L);
      f27(m, l4 + 320L, l2, l3, l8, l4 + 1136L, 66492L, 18L);
      f28(m, l4 + 768L, l4 + 320L);
      m.copy((int) (l4 + 432L), (int) (l4 + 768L), (int) 336L);
      l5 = 0L;
      final int x291 = f26_4(m, l2, l3, l4, l5, l7, l8, l9, l10, l11, l13, l16, l17, l18, l19, l20, l21, l22, l24);
      l5 = m.kept[0];
      l7 = m.kept[1];
      l9 = m.kept[2];
      l10 = m.kept[3];
      l13 = m.kept[4];
      l16 = (int) m.kept[5];
      l17 = (int) m.kept[6];
      l18 = (int) m.kept[7];
      l19 = (int) m.kept[8];
      l20 = (int) m.kept[9];
      l21 = (int) m.kept[10];
      l22 = (int) m.kept[11];
      l24 = (int) m.kept[12];
      switch (x291) {
      case 1: break L1;
      default: break L2;
      }
     }
     l5 = 0L;
     Words.put64(b, ((int) l4) - 58760, 0L);
     Words.put64(b, ((int) l4) - 58752, 0L);
     Words.put64(b, ((int) l4) - 58744, 0L);
     Words.put64(b, ((int) l4) - 58736, 0L);
     Words.put64(b, ((int) l4) - 58728, 0L);
     Words.put64(b, ((int) l4) - 58720, 0L);
     Words.put64(b, ((int) l4) - 58712, 0L);
     Words.put64(b, ((int) l4) - 58704, 0L);
     Words.put64(b, ((int) l4) - 57576, 0L);
     Words.put64(b, ((int) l4) - 57568, 0L);
     Words.put64(b, ((int) l4) - 57560, 0L);
     Words.put64(b, ((int) l4) - 57552, 0L);
     Words.put64(b, ((int) l4) - 57544, 0L);
     Words.put64(b, ((int) l4) - 57536, 0L);
     Words.put64(b, ((int) l4) - 57528, 0L);
     m.fill((int) (l4 + 1136L), 0, (int) 200L);
     m.fill((int) (l4 + 768L), 0, (int) 336L);
     Words.put32(b, ((int) l4) - 58797, 0);
     b[((int) l4) - 58798] = (byte) 1;
     Words.put16(b, ((int) l4) - 58800, (short) 1);
     Words.put64(b, ((int) l4) - 58791, 0L);
     Words.put16(b, ((int) l4) - 58793, (short) 768);
     Words.put64(b, ((int) l4) - 58783, 0L);
     Words.put64(b, ((int) l4) - 58775, 0L);
     Words.put64(b, ((int) l4) - 58768, 0L);
     f14(m, l4 + 152L, l4 + 112L, l2, l3, -1L);
     l12 = Words.get64(b, ((int) l4) - 58704);
     L292: {
      if ((l16 = b[((int) l4) - 58752] & 0xff) + Integer.MIN_VALUE < -2147483631) { break L292; }
      L293: {
       switch (l16 + -17) {
       case 1: break L292;
       default: break L293;
       }
      }
      if (l12 == 0L) { break L2; }
     }
     l11 = Words.get64(b, ((int) l4) - 58720);
     f15(m, l4 + 1136L, l4 + 152L);
     f27(m, l4 + 1336L, l2, l3, l11, l4 + 1136L, 66048L, 47L);
     f28(m, l4 + 768L, l4 + 1336L);
     m.copy((int) (l4 + 432L), (int) (l4 + 768L), (int) 336L);
     l6 = l4 + 392L;
     l8 = l4 + 225L;
     l13 = (l4 + 216L) | 3L;
     final int x323 = f26_5(m, l2, l3, l4, l5, l6, l7, l8, l9, l10, l11, l12, l13, l14, l16, l17, l18, l19, l20, l21, l22);
     l5 = m.kept[0];
     l7 = m.kept[1];
     l9 = m.kept[2];
     l10 = m.kept[3];
     l14 = m.kept[4];
     l16 = (int) m.kept[5];
     l17 = (int) m.kept[6];
     l18 = (int) m.kept[7];
     l19 = (int) m.kept[8];
     l20 = (int) m.kept[9];
     l21 = (int) m.kept[10];
     l22 = (int) m.kept[11];
     switch (x323) {
     case 1: break L1;
     default: break L2;
     }
    }
    l5 = 0L;
    Words.put64(b, ((int) l4) - 58760, 0L);
    Words.put64(b, ((int) l4) - 58752, 0L);
    Words.put64(b, ((int) l4) - 58744, 0L);
    Words.put64(b, ((int) l4) - 58736, 0L);
    Words.put64(b, ((int) l4) - 58728, 0L);
    Words.put64(b, ((int) l4) - 58720, 0L);
    Words.put64(b, ((int) l4) - 58712, 0L);
    Words.put64(b, ((int) l4) - 58704, 0L);
    Words.put64(b, ((int) l4) - 57576, 0L);
    Words.put64(b, ((int) l4) - 57568, 0L);
    Words.put64(b, ((int) l4) - 57560, 0L);
    Words.put64(b, ((int) l4) - 57552, 0L);
    Words.put64(b, ((int) l4) - 57544, 0L);
    Words.put64(b, ((int) l4) - 57536, 0L);
    Words.put64(b, ((int) l4) - 57528, 0L);
    m.fill((int) (l4 + 1136L), 0, (int) 200L);
    m.fill((int) (l4 + 768L), 0, (int) 336L);
    Words.put32(b, ((int) l4) - 58797, 0);
    b[((int) l4) - 58798] = (byte) 1;
    Words.put16(b, ((int) l4) - 58800, (short) 257);
    Words.put64(b, ((int) l4) - 58791, 0L);
    Words.put16(b, ((int) l4) - 58793, (short) 768);
    Words.put64(b, ((int) l4) - 58783, 0L);
    Words.put64(b, ((int) l4) - 58775, 0L);
    Words.put64(b, ((int) l4) - 58768, 0L);
    f12(m, l4 + 152L, l4 + 112L, l2, l3, -1L);
    l12 = Words.get64(b, ((int) l4) - 58704);
    L324: {
     if ((l16 = b[((int) l4) - 58752] & 0xff) + Integer.MIN_VALUE < -2147483631) { break L324; }
     L325: {
      switch (l16 + -17) {
      case 1: break L324;
      default: break L325;
      }
     }
     if (l12 == 0L) { break L2; }
    }
    l11 = Words.get64(b, ((int) l4) - 58720);
    f13(m, l4 + 1136L, l4 + 152L);
    f27(m, l4 + 1336L, l2, l3, l11, l4 + 1136L, 66048L, 47L);
    f28(m, l4 + 768L, l4 + 1336L);
    m.copy((int) (l4 + 432L), (int) (l4 + 768L), (int) 336L);
    l6 = l4 + 392L;
    l8 = l4 + 225L;
    l13 = (l4 + 216L) | 3L;
    final int x355 = f26_6(m, l2, l3, l4, l5, l6, l7, l8, l9, l10, l11, l12, l13, l14, l16, l17, l18, l19, l20, l21, l22);
    l5 = m.kept[0];
    l7 = m.kept[1];
    l9 = m.kept[2];
    l10 = m.kept[3];
    l14 = m.kept[4];
    l16 = (int) m.kept[5];
    l17 = (int) m.kept[6];
    l18 = (int) m.kept[7];
    l19 = (int) m.kept[8];
    l20 = (int) m.kept[9];
    l21 = (int) m.kept[10];
    l22 = (int) m.kept[11];
    switch (x355) {
    case 1: break L1;
    default: break L2;
    }
   }
   l5 = 0L;
   Words.put64(b, ((int) l4) - 58760, 0L);
   Words.put64(b, ((int) l4) - 58752, 0L);
   Words.put64(b, ((int) l4) - 58744, 0L);
   Words.put64(b, ((int) l4) - 58736, 0L);
   Words.put64(b, ((int) l4) - 58728, 0L);
   Words.put64(b, ((int) l4) - 58720, 0L);
   Words.put64(b, ((int) l4) - 58712, 0L);
   Words.put64(b, ((int) l4) - 58704, 0L);
   Words.put64(b, ((int) l4) - 57576, 0L);
   Words.put64(b, ((int) l4) - 57568, 0L);
   Words.put64(b, ((int) l4) - 57560, 0L);
   Words.put64(b, ((int) l4) - 57552, 0L);
   Words.put64(b, ((int) l4) - 57544, 0L);
   Words.put64(b, ((int) l4) - 57536, 0L);
   Words.put64(b, ((int) l4) - 57528, 0L);
   m.fill((int) (l4 + 1136L), 0, (int) 200L);
   m.fill((int) (l4 + 768L), 0, (int) 336L);
   Words.put64(b, ((int) l4) - 58856, 0L);
   Words.put64(b, ((int) l4) - 58864, 0L);
   Words.put64(b, ((int) l4) - 58872, 0L);
   Words.put64(b, ((int) l4) - 58880, 0L);
   Words.put64(b, ((int) l4) - 58888, 0L);
   f10(m, l4 + 152L, l4 + 24L, l2, l3, -1L);
   l12 = Words.get64(b, ((int) l4) - 58704);
   L356: {
    if ((l7 = Words.get64(b, ((int) l4) - 58759) >>> 56L) + Long.MIN_VALUE < -9223372036854775791L) { break L356; }
    L357: {
     switch (((int) l7) + -17) {
     case 1: break L356;
     default: break L357;
     }
    }
    if (l12 == 0L) { break L2; }
   }
   l8 = Words.get64(b, ((int) l4) - 58720);
   f11(m, l4 + 1136L, l4 + 152L);
   f27(m, l4 + 1336L, l2, l3, l8, l4 + 1136L, 66048L, 34L);
   f28(m, l4 + 768L, l4 + 1336L);
   m.copy((int) (l4 + 432L), (int) (l4 + 768L), (int) 336L);
   l11 = (l4 + 384L) + 8L;
   l13 = (l4 + 64L) + 8L;
   final int x378 = f26_7(m, l2, l3, l4, l5, l7, l8, l9, l10, l11, l12, l13, l14, l16, l17, l18, l19, l20, l22);
   l5 = m.kept[0];
   l7 = m.kept[1];
   l9 = m.kept[2];
   l10 = m.kept[3];
   l14 = m.kept[4];
   l16 = (int) m.kept[5];
   l17 = (int) m.kept[6];
   l18 = (int) m.kept[7];
   l19 = (int) m.kept[8];
   l20 = (int) m.kept[9];
   l22 = (int) m.kept[10];
   switch (x378) {
   case 1: break L1;
   }
  }
  l20 = 0;
  l7 = 0L;
  l16 = 0;
  l17 = 0;
 }
 f26_8(m, l0, l1, l2, l3, l4, l5, l7, l8, l9, l16, l17, l20);
 l1 = (int) m.kept[0];
 l5 = m.kept[1];
 l8 = m.kept[2];
 l9 = m.kept[3];
 l20 = (int) m.kept[4];
 m.g0 = l4 + 1456L;
}

static void f27(State m, long l0, long l1, long l2, long l3, long l4, long l5, long l6) {
 final byte[] b = m.bytes;
 long l7 = 0;
 long l8 = 0;
 long l9 = 0;
 long l10 = 0;
 int l11 = 0;
 int l12 = 0;
 int l13 = 0;
 int l14 = 0;
 int l15 = 0;
 int l16 = 0;
 int l17 = 0;
 int l18 = 0;
 int l19 = 0;
 int l20 = 0;
 int l21 = 0;
 int l22 = 0;
 L1: {
  if (m.g0 < 16L) { break L1; }
  l7 = -1L;
  l8 = l1;
  l9 = l2;
  L2: {
   L3: while (true) {
    l11 = 0;
    L4: {
     if ((l12 = (l9 == 0L) ? 1 : 0) == 0) { break L4; }
     l13 = 0;
     l14 = 0;
     break L2;
    }
    l14 = (l15 = (int) b[((int) l8) - 58912]) & 255;
    L5: {
     L6: {
      if (l15 <= -1) { break L6; }
      l10 = 1L;
      break L5;
     }
     l16 = (b[((int) l8) - 58911] & 0xff) & 63;
     L7: {
      if (l15 + Integer.MIN_VALUE > 2147483615) { break L7; }
      l14 = ((l14 << 6) & 1984) | l16;
      l10 = 2L;
      break L5;
     }
     l17 = (b[((int) l8) - 58910] & 0xff) & 63;
     L8: {
      if (l15 + Integer.MIN_VALUE > 2147483631) { break L8; }
      l14 = ((l16 << 6) | ((l14 << 12) & 61440)) | l17;
      l10 = 3L;
      break L5;
     }
     l14 = ((l17 << 6) | ((l16 << 12) | ((l14 << 18) & 1835008))) | ((b[((int) l8) - 58909] & 0xff) & 63);
     l10 = 4L;
    }
    l9 = l9 - l10;
    l8 = l8 + l10;
    if (l3 != (l7 = l7 + 1L)) { continue L3; }
    break L3;
   }
   l13 = 1;
  }
  L9: {
   L10: {
    L11: {
     L12: {
      if ((l15 = (l3 == 0L) ? 1 : 0) == 0) { break L12; }
      l18 = 0;
      l17 = 0;
      l19 = 0;
      break L11;
     }
     l7 = (l15 != 0 ? l3 : 1L) + -1L;
     l8 = l1;
     l9 = l2;
     L13: {
      L14: while (true) {
       l11 = 0;
       L15: {
        if (!(l9 == 0L)) { break L15; }
        l17 = 0;
        l19 = 0;
        break L13;
       }
       l17 = (l15 = (int) b[((int) l8) - 58912]) & 255;
       L16: {
        L17: {
         if (l15 <= -1) { break L17; }
         l10 = 1L;
         break L16;
        }
        l16 = (b[((int) l8) - 58911] & 0xff) & 63;
        L18: {
         if (l15 + Integer.MIN_VALUE > 2147483615) { break L18; }
         l17 = ((l17 << 6) & 1984) | l16;
         l10 = 2L;
         break L16;
        }
        l18 = (b[((int) l8) - 58910] & 0xff) & 63;
        L19: {
         if (l15 + Integer.MIN_VALUE > 2147483631) { break L19; }
         l17 = ((l16 << 6) | ((l17 << 12) & 61440)) | l18;
         l10 = 3L;
         break L16;
        }
        l17 = ((l18 << 6) | ((l16 << 12) | ((l17 << 18) & 1835008))) | ((b[((int) l8) - 58909] & 0xff) & 63);
        l10 = 4L;
       }
       l9 = l9 - l10;
       l8 = l8 + l10;
       if (l3 != (l7 = l7 + 1L)) { continue L14; }
       break L14;
      }
      l19 = 1;
     }
     if ((l15 = (l3 == 1L) ? 1 : 0) == 0) { break L10; }
     l18 = 0;
    }
    l20 = 0;
    l21 = 0;
    break L9;
   }
   final long t20 = l3 + -2L;
   final int t21 = l15;
   l7 = (t21 != 0 ? 0L : t20) + 1L;
   l8 = l1;
   l10 = l2;
   L22: {
    L23: while (true) {
     l21 = 0;
     L24: {
      if (!(l10 == 0L)) { break L24; }
      l18 = 0;
      l11 = 0;
      break L22;
     }
     l18 = (l15 = (int) b[((int) l8) - 58912]) & 255;
     l9 = 1L;
     L25: {
      if (l15 > -1) { break L25; }
      l11 = (b[((int) l8) - 58911] & 0xff) & 63;
      L26: {
       if (l15 + Integer.MIN_VALUE > 2147483615) { break L26; }
       l18 = ((l18 << 6) & 1984) | l11;
       l9 = 2L;
       break L25;
      }
      l16 = (b[((int) l8) - 58910] & 0xff) & 63;
      L27: {
       if (l15 + Integer.MIN_VALUE > 2147483631) { break L27; }
       l18 = ((l11 << 6) | ((l18 << 12) & 61440)) | l16;
       l9 = 3L;
       break L25;
      }
      l18 = ((l16 << 6) | ((l11 << 12) | ((l18 << 18) & 1835008))) | ((b[((int) l8) - 58909] & 0xff) & 63);
      l9 = 4L;
     }
     l10 = l10 - l9;
     l8 = l8 + l9;
     if ((l7 = l7 + -1L) != 0L) { continue L23; }
     break L23;
    }
    l11 = 1;
   }
   L28: {
    if (l3 + Long.MIN_VALUE >= -9223372036854775805L) { break L28; }
    l20 = 0;
    break L9;
   }
   final long t29 = l8 = l3 + -3L;
   final int t30 = (l8 + Long.MIN_VALUE > l3 + Long.MIN_VALUE) ? 1 : 0;
   l9 = (t30 != 0 ? 0L : t29) + 1L;
   L31: while (true) {
    L32: {
     if (!(l2 == 0L)) { break L32; }
     l20 = 0;
     break L9;
    }
    l20 = (l15 = (int) b[((int) l1) - 58912]) & 255;
    l8 = 1L;
    L33: {
     if (l15 > -1) { break L33; }
     l16 = (b[((int) l1) - 58911] & 0xff) & 63;
     L34: {
      if (l15 + Integer.MIN_VALUE > 2147483615) { break L34; }
      l20 = ((l20 << 6) & 1984) | l16;
      l8 = 2L;
      break L33;
     }
     l22 = (b[((int) l1) - 58910] & 0xff) & 63;
     L35: {
      if (l15 + Integer.MIN_VALUE > 2147483631) { break L35; }
      l20 = ((l16 << 6) | ((l20 << 12) & 61440)) | l22;
      l8 = 3L;
      break L33;
     }
     l20 = ((l22 << 6) | ((l16 << 12) | ((l20 << 18) & 1835008))) | ((b[((int) l1) - 58909] & 0xff) & 63);
     l8 = 4L;
    }
    l2 = l2 - l8;
    l1 = l1 + l8;
    if ((l9 = l9 + -1L) != 0L) { continue L31; }
    break L31;
   }
   l21 = 1;
  }
  l22 = 0;
  l16 = 0;
  L36: {
   if (l12 != 0) { break L36; }
   l8 = l6 + -1L;
   L37: while (true) {
    if ((l16 = (Words.get32(b, ((int) l5) - 58912) == l14) ? 1 : 0) != 0) { break L36; }
    l5 = l5 + 4L;
    l15 = (l8 != 0L) ? 1 : 0;
    l8 = l8 + -1L;
    if (l15 != 0) { continue L37; }
    break L37;
   }
  }
  l15 = 0;
  L38: {
   if (Words.get64(b, ((int) (l4 + 192L)) - 58912) != 1L) { break L38; }
   l15 = Words.get32(b, ((int) l4) - 58912);
   l22 = 1;
  }
  Words.put16(b, ((int) l0) - 58871, (short) 0);
  b[((int) l0) - 58872] = (byte) l16;
  Words.put32(b, ((int) l0) - 58876, l14);
  Words.put32(b, ((int) l0) - 58880, l13);
  Words.put32(b, ((int) l0) - 58884, l20);
  Words.put32(b, ((int) l0) - 58888, l21);
  Words.put32(b, ((int) l0) - 58892, l18);
  Words.put32(b, ((int) l0) - 58896, l11);
  Words.put32(b, ((int) l0) - 58900, l17);
  Words.put32(b, ((int) l0) - 58904, l19);
  Words.put64(b, ((int) l0) - 58912, l3);
  b[((int) l0) - 58869] = (byte) 0;
  Words.put32(b, ((int) l0) - 58860, 0);
  Words.put32(b, ((int) l0) - 58864, l15);
  Words.put32(b, ((int) l0) - 58868, l22);
  return;
 }
 throw State.trap();
}

static void f28(State m, long l0, long l1) {
 final byte[] b = m.bytes;
 long l2 = 0;
 long l3 = 0;
 long l4 = 0;
 long l5 = 0;
 long l6 = 0;
 long l7 = 0;
 long l8 = 0;
 long l9 = 0;
 long l10 = 0;
 long l11 = 0;
 long l12 = 0;
 long l13 = 0;
 long l14 = 0;
 long l15 = 0;
 long l16 = 0;
 long l17 = 0;
 long l18 = 0;
 long l19 = 0;
 int l20 = 0;
 int l21 = 0;
 int l22 = 0;
 int l23 = 0;
 int l24 = 0;
 int l25 = 0;
 int l26 = 0;
 int l27 = 0;
 int l28 = 0;
 int l29 = 0;
 int l30 = 0;
 int l31 = 0;
 int l32 = 0;
 int l33 = 0;
 int l34 = 0;
 int l35 = 0;
 int l36 = 0;
 int l37 = 0;
 int l38 = 0;
 m.g0 = l2 = m.g0 - 112L;
 L1: {
  L2: {
   L3: {
    L4: {
     L5: {
      if ((l2 = l2) < 16L) { break L5; }
      l3 = 0L;
      Words.put64(b, ((int) l2) - 58808, 0L);
      Words.put64(b, ((int) l2) - 58816, 0L);
      Words.put64(b, ((int) l2) - 58824, 0L);
      Words.put64(b, ((int) l2) - 58848, 0L);
      Words.put64(b, ((int) l2) - 58840, 0L);
      Words.put64(b, ((int) l2) - 58832, 0L);
      l20 = 0;
      l21 = 0;
      l22 = 0;
      l4 = 0L;
      L6: {
       L7: {
        if ((l23 = b[((int) (l1 + 32L)) - 58912] & 0xff) != 1) { break L7; }
        f32(m, l2 + 56L, l24 = Words.get32(b, ((int) (l1 + 36L)) - 58912));
        L8: {
         L9: {
          if ((b[((int) l2) - 58856] & 0xff) == 1) { break L9; }
          l22 = 0;
          l4 = 0L;
          l21 = 0;
          break L8;
         }
         l21 = Words.get32(b, ((int) l2) - 58852);
         l4 = Words.get64(b, ((int) l1) - 58912);
         l22 = 1;
        }
        L10: {
         L11: {
          L12: {
           L13: {
            if (l24 > 12289) { break L13; }
            l25 = 48;
            switch (l24 + -73) {
            case 0: case 35: break L12;
            case 6: case 38: break L10;
            default: break L7;
            }
           }
           if (l24 == 12290) { break L11; }
           L14: {
            if (l24 == 36000) { break L14; }
            if (l24 != 36127) { break L7; }
           }
           l25 = 45;
           break L10;
          }
          l25 = 49;
          break L10;
         }
         l25 = 46;
        }
        l20 = 1;
        l3 = l5 = Words.get64(b, ((int) l1) - 58912);
        break L6;
       }
       l5 = Words.get64(b, ((int) l1) - 58912);
       l25 = 0;
      }
      l6 = 1L;
      L15: {
       L16: {
        L17: {
         if (l5 + Long.MIN_VALUE > -9223372036854775807L) { break L17; }
         l26 = 0;
         l6 = l5;
         l27 = 0;
         l7 = l5;
         l8 = l5;
         l9 = l5;
         switch ((int) l5) {
         case 1: break L16;
         default: break L15;
         }
        }
        l9 = l5 + -2L;
        l7 = l5 + -1L;
        l27 = 38646;
        l8 = 1L;
        l26 = 38646;
        break L15;
       }
       l7 = 0L;
       l27 = 38646;
       l6 = l5;
       l8 = 0L;
       l9 = 0L;
      }
      L18: {
       L19: {
        if (l23 == 1) { break L19; }
        l28 = 0;
        l10 = 0L;
        l29 = 25972;
        l11 = 1L;
        l12 = l5;
        l13 = 0L;
        l14 = 0L;
        l15 = 0L;
        l30 = 0;
        break L18;
       }
       l31 = ((l24 = Words.get32(b, ((int) (l1 + 36L)) - 58912)) == 25342) ? 1 : 0;
       L20: {
        L21: {
         if (l24 == 27491) { break L21; }
         l15 = 0L;
         l10 = 0L;
         l30 = 0;
         if (l24 != 25972) { break L20; }
        }
        l30 = 20803;
        l15 = 1L;
        l10 = l5;
       }
       l28 = l31 != 0 ? 22777 : 0;
       l14 = l31 != 0 ? l5 : 0L;
       l13 = (l24 == 25342) ? 1L : 0L;
       l29 = 0;
       l11 = 0L;
       l12 = 0L;
      }
      l24 = Words.get32(b, ((int) (l1 + 48L)) - 58912);
      L22: {
       L23: {
        if ((l32 = b[((int) (l1 + 44L)) - 58912] & 0xff) != 1) { break L23; }
        f32(m, l2 + 48L, l24);
        L24: {
         L25: {
          final int t26 = Words.get32(b, ((int) l2) - 58860);
          final int t27 = l24;
          final int t28 = (b[((int) l2) - 58864] & 0xff) & 1;
          if ((l31 = t28 != 0 ? t26 : t27) > 26577) { break L25; }
          L29: {
           if (l31 > 22776) { break L29; }
           if (l31 == 20237) { break L23; }
           if (l31 != 21441) { break L24; }
           break L23;
          }
          if (l31 == 22777) { break L23; }
          if (l31 != 25420) { break L24; }
          break L23;
         }
         L30: {
          if (l31 > 32901) { break L30; }
          if (l31 == 26578) { break L23; }
          if (l31 != 29590) { break L24; }
          break L23;
         }
         if (l31 == 32902) { break L23; }
         if (l31 == 36144) { break L23; }
         if (l31 == 38470) { break L23; }
        }
        l16 = 1L;
        l17 = l5;
        l33 = l24;
        if (((l24 + -48) + Integer.MIN_VALUE > -2147483639) & ((l24 + -65296) + Integer.MIN_VALUE > -2147483639)) { break L22; }
       }
       l33 = 0;
       l16 = 0L;
       l17 = 0L;
      }
      f33(m, l2 + 88L, l1, 2L, l31 = b[((int) (l1 + 16L)) - 58912] & 0xff, l34 = Words.get32(b, ((int) (l1 + 20L)) - 58912));
      f33(m, l2 + 64L, l1, 1L, l35 = b[((int) (l1 + 8L)) - 58912] & 0xff, l36 = Words.get32(b, ((int) (l1 + 12L)) - 58912));
      L31: {
       L32: {
        L33: {
         if ((b[((int) (l1 + 24L)) - 58912] & 0xff) != 1) { break L33; }
         if ((l35 & 255) != 1) { break L33; }
         if ((l31 & 255) != 1) { break L33; }
         if (Words.get32(b, ((int) (l1 + 28L)) - 58912) != 38646) { break L33; }
         if (l34 != 22777) { break L33; }
         if (l36 != 25342) { break L33; }
         if (l23 != 1) { break L2; }
         f32(m, l2 + 40L, l31 = Words.get32(b, ((int) (l1 + 36L)) - 58912));
         L34: {
          L35: {
           L36: {
            final int t37 = Words.get32(b, ((int) l2) - 58868);
            final int t38 = l31;
            final int t39 = (b[((int) l2) - 58872] & 0xff) & 1;
            if ((l23 = t39 != 0 ? t37 : t38) > 26577) { break L36; }
            L40: {
             if (l23 > 22776) { break L40; }
             if (l23 == 20237) { break L34; }
             if (l23 != 21441) { break L35; }
             break L34;
            }
            if (l23 == 22777) { break L34; }
            if (l23 != 25420) { break L35; }
            break L34;
           }
           L41: {
            if (l23 > 32901) { break L41; }
            if (l23 == 26578) { break L34; }
            if (l23 != 29590) { break L35; }
            break L34;
           }
           if (l23 == 32902) { break L34; }
           if (l23 == 36144) { break L34; }
           if (l23 == 38470) { break L34; }
          }
          if ((l31 + -48) + Integer.MIN_VALUE < -2147483638) { break L34; }
          if ((l31 + -65296) + Integer.MIN_VALUE > -2147483639) { break L32; }
         }
         final long t42 = l18 = l5 + -3L;
         final int t43 = (l18 + Long.MIN_VALUE > l5 + Long.MIN_VALUE) ? 1 : 0;
         l19 = t43 != 0 ? 0L : t42;
         l38 = ((l37 = (l5 + Long.MIN_VALUE > -9223372036854775806L) ? 1 : 0) != 0) ? 2 : 0;
         break L31;
        }
        if (l23 != 1) { break L2; }
        l31 = Words.get32(b, ((int) (l1 + 36L)) - 58912);
       }
       l19 = 0L;
       l38 = 0;
       l37 = 0;
      }
      L44: {
       L45: {
        if (l31 == 25972) { break L45; }
        if (l31 == 27491) { break L45; }
        if (l31 == 38646) { break L45; }
        f32(m, l2 + 32L, l31);
        l18 = 0L;
        l34 = 0;
        L46: {
         L47: {
          final int t48 = Words.get32(b, ((int) l2) - 58876);
          final int t49 = l31;
          final int t50 = (b[((int) l2) - 58880] & 0xff) & 1;
          if ((l23 = t50 != 0 ? t48 : t49) > 26577) { break L47; }
          L51: {
           if (l23 > 22776) { break L51; }
           L52: {
            if (l23 != 20237) { break L52; }
            l35 = 0;
            break L44;
           }
           if (l23 != 21441) { break L46; }
           l35 = 0;
           break L44;
          }
          L53: {
           if (l23 != 22777) { break L53; }
           l35 = 0;
           break L44;
          }
          if (l23 != 25420) { break L46; }
          l35 = 0;
          break L44;
         }
         L54: {
          if (l23 > 32901) { break L54; }
          L55: {
           if (l23 != 26578) { break L55; }
           l35 = 0;
           break L44;
          }
          if (l23 != 29590) { break L46; }
          l35 = 0;
          break L44;
         }
         L56: {
          if (l23 != 32902) { break L56; }
          l35 = 0;
          break L44;
         }
         L57: {
          if (l23 != 36144) { break L57; }
          l35 = 0;
          break L44;
         }
         if (l23 != 38470) { break L46; }
         l35 = 0;
         break L44;
        }
        L58: {
         if ((l31 + -48) + Integer.MIN_VALUE >= -2147483638) { break L58; }
         l35 = 0;
         break L44;
        }
        L59: {
         if ((l31 + -65296) + Integer.MIN_VALUE >= -2147483638) { break L59; }
         l35 = 0;
         break L44;
        }
        L60: {
         if ((l35 & 255) != 1) { break L60; }
         f32(m, l2 + 24L, l36);
         l23 = b[((int) l2) - 58888] & 0xff;
         l35 = Words.get32(b, ((int) l2) - 58884);
         f32(m, l2 + 16L, l31);
         final int t61 = ((l23 & 1) != 0) ? l35 : l36;
         final int t62 = Words.get32(b, ((int) l2) - 58892);
         final int t63 = l31;
         final int t64 = (b[((int) l2) - 58896] & 0xff) & 1;
         if (t61 == (t64 != 0 ? t62 : t63)) { break L45; }
        }
        L65: {
         if ((b[((int) (l1 + 40L)) - 58912] & 0xff) == 0) { break L65; }
         l35 = 0;
         break L44;
        }
        L66: {
         if (f34(m, l31) == 0) { break L66; }
         l35 = 0;
         break L44;
        }
        l35 = 0;
        if (f35(m, l1, l31) != 0) { break L44; }
       }
       l35 = 2;
       l34 = 1;
       l18 = l5;
      }
      l23 = 0;
      l1 = 0L;
      if (f34(m, l31) != 0) { break L3; }
      if (l32 != 1) { break L4; }
      f32(m, l2 + 8L, l24);
      L67: {
       L68: {
        final int t69 = Words.get32(b, ((int) l2) - 58900);
        final int t70 = l24;
        final int t71 = (b[((int) l2) - 58904] & 0xff) & 1;
        if ((l23 = t71 != 0 ? t69 : t70) > 26577) { break L68; }
        L72: {
         if (l23 > 22776) { break L72; }
         if (l23 == 20237) { break L4; }
         if (l23 == 21441) { break L4; }
         break L67;
        }
        if (l23 == 22777) { break L4; }
        if (l23 == 25420) { break L4; }
        break L67;
       }
       L73: {
        if (l23 > 32901) { break L73; }
        if (l23 == 26578) { break L4; }
        if (l23 != 29590) { break L67; }
        break L4;
       }
       if (l23 == 32902) { break L4; }
       if (l23 == 36144) { break L4; }
       if (l23 == 38470) { break L4; }
      }
      l23 = 1;
      if (!(((l24 + -48) + Integer.MIN_VALUE > -2147483639) & ((l24 + -65296) + Integer.MIN_VALUE > -2147483639))) { break L4; }
      l1 = l5;
      break L1;
     }
     throw State.trap();
    }
    l23 = 0;
   }
   l24 = 0;
   break L1;
  }
  l35 = 0;
  l18 = 0L;
  l34 = 0;
  l37 = 0;
  l19 = 0L;
  l38 = 0;
  l23 = 0;
  l1 = 0L;
  l24 = 0;
 }
 Words.put32(b, ((int) l0) - 58580, l24);
 Words.put32(b, ((int) l0) - 58584, l23);
 Words.put64(b, ((int) l0) - 58592, l1);
 Words.put32(b, ((int) l0) - 58604, 0);
 Words.put32(b, ((int) l0) - 58608, l35);
 Words.put64(b, ((int) l0) - 58616, l18);
 Words.put32(b, ((int) l0) - 58628, 0);
 Words.put32(b, ((int) l0) - 58632, l38);
 Words.put64(b, ((int) l0) - 58640, l19);
 Words.put32(b, ((int) l0) - 58652, Words.get32(b, ((int) l2) - 58828));
 Words.put32(b, ((int) l0) - 58656, b[((int) l2) - 58832] & 0xff);
 Words.put64(b, ((int) l0) - 58664, Words.get64(b, ((int) l2) - 58840));
 Words.put64(b, ((int) l0) - 58672, b[((int) l2) - 58848] & 0xffL);
 Words.put32(b, ((int) l0) - 58676, Words.get32(b, ((int) l2) - 58804));
 Words.put32(b, ((int) l0) - 58680, b[((int) l2) - 58808] & 0xff);
 Words.put64(b, ((int) l0) - 58688, Words.get64(b, ((int) l2) - 58816));
 Words.put64(b, ((int) l0) - 58696, b[((int) l2) - 58824] & 0xffL);
 Words.put32(b, ((int) l0) - 58700, l33);
 Words.put32(b, ((int) l0) - 58704, 0);
 Words.put64(b, ((int) l0) - 58712, l17);
 Words.put64(b, ((int) l0) - 58720, l16);
 Words.put32(b, ((int) l0) - 58724, l30);
 Words.put32(b, ((int) l0) - 58728, 0);
 Words.put64(b, ((int) l0) - 58736, l10);
 Words.put64(b, ((int) l0) - 58744, l15);
 Words.put32(b, ((int) l0) - 58748, l29);
 Words.put32(b, ((int) l0) - 58752, 0);
 Words.put64(b, ((int) l0) - 58760, l12);
 Words.put64(b, ((int) l0) - 58768, l11);
 Words.put32(b, ((int) l0) - 58772, l28);
 Words.put32(b, ((int) l0) - 58776, 0);
 Words.put64(b, ((int) l0) - 58784, l14);
 Words.put64(b, ((int) l0) - 58792, l13);
 Words.put32(b, ((int) l0) - 58796, l26);
 Words.put32(b, ((int) l0) - 58800, 0);
 Words.put64(b, ((int) l0) - 58808, l9);
 Words.put64(b, ((int) l0) - 58816, l8);
 Words.put64(b, ((int) l0) - 58824, 165983306121216L);
 Words.put64(b, ((int) l0) - 58832, l5);
 Words.put64(b, ((int) l0) - 58840, 1L);
 Words.put32(b, ((int) l0) - 58844, l27);
 Words.put32(b, ((int) l0) - 58848, 0);
 Words.put64(b, ((int) l0) - 58856, l7);
 Words.put64(b, ((int) l0) - 58864, l6);
 Words.put32(b, ((int) l0) - 58868, l25);
 Words.put32(b, ((int) l0) - 58872, l20);
 Words.put64(b, ((int) l0) - 58880, l3);
 Words.put32(b, ((int) l0) - 58892, l21);
 Words.put32(b, ((int) l0) - 58896, l22);
 Words.put64(b, ((int) l0) - 58904, l4);
 Words.put64(b, ((int) l0) - 58600, l23 & 0xffffffffL);
 Words.put64(b, ((int) l0) - 58624, l34 & 0xffffffffL);
 Words.put64(b, ((int) l0) - 58648, l37 & 0xffffffffL);
 Words.put64(b, ((int) l0) - 58888, l20 & 0xffffffffL);
 Words.put64(b, ((int) l0) - 58912, l22 & 0xffffffffL);
 m.g0 = l2 + 112L;
}

static int f29(State m, long l0, long l1, long l2) {
 final byte[] b = m.bytes;
 int l3 = 0;
 long l4 = 0;
 long l5 = 0;
 long l6 = 0;
 L1: {
  L2: {
   L3: {
    if (m.g0 < 16L) { break L3; }
    L4: {
     if (!(l1 == 0L)) { break L4; }
     l3 = 0;
     break L1;
    }
    L5: {
     if (l1 + Long.MIN_VALUE > -9223372036854775806L) { break L5; }
     l3 = ((Words.get32(b, ((int) l0) - 58912) == (l3 = Words.get32(b, ((int) l2) - 58912))) | (Words.get32(b, ((int) ((l0 + (l1 << 2L)) + -4L)) - 58912) == l3)) ? 1 : 0;
     break L1;
    }
    L6: {
     if (l1 + Long.MIN_VALUE > -9223372036854775800L) { break L6; }
     final int t7 = ((Words.get32(b, ((int) l0) - 58912) == (l3 = Words.get32(b, ((int) l2) - 58912))) | (Words.get32(b, ((int) (l0 + 4L)) - 58912) == l3)) ? 1 : 0;
     final long t8 = l0;
     final long t9 = l2 = l1 + -2L;
     final int t10 = (l2 + Long.MIN_VALUE < -9223372036854775806L) ? 1 : 0;
     l3 = ((t7 | (((Words.get32(b, ((int) (l4 = t8 + ((t10 != 0 ? t9 : 2L) << 2L))) - 58912) == l3) | (Words.get32(b, ((int) (l4 + 4L)) - 58912) == l3)) ? 1 : 0)) | (((Words.get32(b, ((int) (l4 = l0 + (((l2 + Long.MIN_VALUE < -9223372036854775804L) ? l2 : 4L) << 2L))) - 58912) == l3) | (Words.get32(b, ((int) (l4 + 4L)) - 58912) == l3)) ? 1 : 0)) | (((Words.get32(b, ((int) (l0 + (l2 << 2L))) - 58912) == l3) | (Words.get32(b, ((int) ((l0 + (l1 << 2L)) + -4L)) - 58912) == l3)) ? 1 : 0);
     break L1;
    }
    l3 = Words.get32(b, ((int) l2) - 58912);
    L11: {
     if (l1 + Long.MIN_VALUE > -9223372036854775792L) { break L11; }
     l3 = (((((((((Words.get32(b, ((int) l0) - 58912) == l3) | (Words.get32(b, ((int) (l0 + 4L)) - 58912) == l3)) | (Words.get32(b, ((int) (l0 + 8L)) - 58912) == l3)) | (Words.get32(b, ((int) (l0 + 12L)) - 58912) == l3)) | (Words.get32(b, ((int) (l0 + 16L)) - 58912) == l3)) | (Words.get32(b, ((int) (l0 + 20L)) - 58912) == l3)) | (Words.get32(b, ((int) (l0 + 24L)) - 58912) == l3)) | (Words.get32(b, ((int) (l0 + 28L)) - 58912) == l3)) | ((((((((Words.get32(b, ((int) ((l2 = l0 + (l1 << 2L)) + -32L)) - 58912) == l3) | (Words.get32(b, ((int) (l2 + -28L)) - 58912) == l3)) | (Words.get32(b, ((int) (l2 + -24L)) - 58912) == l3)) | (Words.get32(b, ((int) (l2 + -20L)) - 58912) == l3)) | (Words.get32(b, ((int) (l2 + -16L)) - 58912) == l3)) | (Words.get32(b, ((int) (l2 + -12L)) - 58912) == l3)) | (Words.get32(b, ((int) (l2 + -8L)) - 58912) == l3)) | (Words.get32(b, ((int) (l2 + -4L)) - 58912) == l3))) ? 1 : 0;
     break L1;
    }
    l5 = l1 & -16L;
    l4 = 0L;
    l6 = l1;
    l2 = l0;
    L12: {
     L13: while (true) {
      if (Words.get32(b, ((int) l2) - 58912) == l3) { break L12; }
      if (Words.get32(b, ((int) (l2 + 4L)) - 58912) == l3) { break L12; }
      if (Words.get32(b, ((int) (l2 + 8L)) - 58912) == l3) { break L12; }
      if (Words.get32(b, ((int) (l2 + 12L)) - 58912) == l3) { break L12; }
      if (Words.get32(b, ((int) (l2 + 16L)) - 58912) == l3) { break L12; }
      if (Words.get32(b, ((int) (l2 + 20L)) - 58912) == l3) { break L12; }
      if (Words.get32(b, ((int) (l2 + 24L)) - 58912) == l3) { break L12; }
      if (Words.get32(b, ((int) (l2 + 28L)) - 58912) == l3) { break L12; }
      if (Words.get32(b, ((int) (l2 + 32L)) - 58912) == l3) { break L12; }
      if (Words.get32(b, ((int) (l2 + 36L)) - 58912) == l3) { break L12; }
      if (Words.get32(b, ((int) (l2 + 40L)) - 58912) == l3) { break L12; }
      if (Words.get32(b, ((int) (l2 + 44L)) - 58912) == l3) { break L12; }
      if (Words.get32(b, ((int) (l2 + 48L)) - 58912) == l3) { break L12; }
      if (Words.get32(b, ((int) (l2 + 52L)) - 58912) == l3) { break L12; }
      if (Words.get32(b, ((int) (l2 + 56L)) - 58912) == l3) { break L12; }
      if (Words.get32(b, ((int) (l2 + 60L)) - 58912) == l3) { break L12; }
      l2 = l2 + 64L;
      l4 = l4 + 16L;
      if ((l6 = l6 + -16L) + Long.MIN_VALUE > -9223372036854775793L) { continue L13; }
      break L13;
     }
     l4 = l5;
    }
    if ((l6 = l1 - l4) + Long.MIN_VALUE < -9223372036854775800L) { break L2; }
    l2 = l0 + (l4 << 2L);
    L14: {
     L15: while (true) {
      if (Words.get32(b, ((int) l2) - 58912) == l3) { break L14; }
      if (Words.get32(b, ((int) (l2 + 4L)) - 58912) == l3) { break L14; }
      if (Words.get32(b, ((int) (l2 + 8L)) - 58912) == l3) { break L14; }
      if (Words.get32(b, ((int) (l2 + 12L)) - 58912) == l3) { break L14; }
      if (Words.get32(b, ((int) (l2 + 16L)) - 58912) == l3) { break L14; }
      if (Words.get32(b, ((int) (l2 + 20L)) - 58912) == l3) { break L14; }
      if (Words.get32(b, ((int) (l2 + 24L)) - 58912) == l3) { break L14; }
      if (Words.get32(b, ((int) (l2 + 28L)) - 58912) == l3) { break L14; }
      l2 = l2 + 32L;
      if ((l6 = l6 + -8L) + Long.MIN_VALUE > -9223372036854775801L) { continue L15; }
      break L2;
     }
    }
    if (l6 + Long.MIN_VALUE <= -9223372036854775801L) { break L2; }
    l3 = 1;
    break L1;
   }
   throw State.trap();
  }
  l3 = ((((((((Words.get32(b, ((int) ((l2 = l0 + (l1 << 2L)) + -32L)) - 58912) == l3) | (Words.get32(b, ((int) (l2 + -28L)) - 58912) == l3)) | (Words.get32(b, ((int) (l2 + -24L)) - 58912) == l3)) | (Words.get32(b, ((int) (l2 + -20L)) - 58912) == l3)) | (Words.get32(b, ((int) (l2 + -16L)) - 58912) == l3)) | (Words.get32(b, ((int) (l2 + -12L)) - 58912) == l3)) | (Words.get32(b, ((int) (l2 + -8L)) - 58912) == l3)) | (Words.get32(b, ((int) (l2 + -4L)) - 58912) == l3)) ? 1 : 0;
 }
 return l3 & 1;
}

static void f30(State m, long l0, long l1, long l2, long l3) {
 final byte[] b = m.bytes;
 long l4 = 0;
 long l5 = 0;
 long l6 = 0;
 long l7 = 0;
 m.g0 = l4 = m.g0 - 32L;
 L1: {
  if ((l5 = l4) < 16L) { break L1; }
  l6 = 0L;
  l4 = l3;
  L2: {
   if (l3 + Long.MIN_VALUE < -9223372036854775792L) { break L2; }
   f25(m, l5 + 16L, l1, l2, l3);
   l4 = Words.get64(b, ((int) l5) - 58888);
   l6 = Words.get64(b, ((int) l5) - 58896);
  }
  L3: {
   if (l4 + Long.MIN_VALUE < -9223372036854775805L) { break L3; }
   L4: while (true) {
    if ((l2 - l6) + Long.MIN_VALUE < -9223372036854775800L) { break L3; }
    L5: {
     L6: {
      if (((l7 = Words.get64(b, ((int) (l1 + l6)) - 58912)) & 67553998437089520L) != 63050398541283552L) { break L6; }
      l4 = l4 + -3L;
      l6 = l6 + 9L;
      break L5;
     }
     if (l4 + Long.MIN_VALUE < -9223372036854775800L) { break L3; }
     if ((l7 & -9187201950435737472L) != 0L) { break L3; }
     l4 = l4 + -8L;
     l6 = l6 + 8L;
    }
    if (l4 + Long.MIN_VALUE > -9223372036854775806L) { continue L4; }
    break L4;
   }
  }
  L7: {
   if (l4 == 0L) { break L7; }
   if (l2 + Long.MIN_VALUE <= l6 + Long.MIN_VALUE) { break L7; }
   l4 = l4 + -1L;
   L8: while (true) {
    l6 = Words.get64(b, ((int) (((((b[((int) (l1 + l6)) - 58912] & 0xff) >>> 1) & 0xffffffffL) & 120L) + 66680L)) - 58912) + l6;
    if (l4 == 0L) { break L7; }
    l4 = l4 + -1L;
    if (l2 + Long.MIN_VALUE > l6 + Long.MIN_VALUE) { continue L8; }
    break L8;
   }
  }
  l4 = 0L;
  L9: {
   final long t10 = l7 = l3 + 1L;
   final int t11 = (l7 == 0L) ? 1 : 0;
   if ((l7 = t11 != 0 ? -1L : t10) + Long.MIN_VALUE < -9223372036854775792L) { break L9; }
   f25(m, l5, l1, l2, l7);
   l7 = Words.get64(b, ((int) l5) - 58904);
   l4 = Words.get64(b, ((int) l5) - 58912);
  }
  L12: {
   if (l7 + Long.MIN_VALUE < -9223372036854775805L) { break L12; }
   L13: while (true) {
    if ((l2 - l4) + Long.MIN_VALUE < -9223372036854775800L) { break L12; }
    L14: {
     L15: {
      if (((l3 = Words.get64(b, ((int) (l1 + l4)) - 58912)) & 67553998437089520L) != 63050398541283552L) { break L15; }
      l7 = l7 + -3L;
      l4 = l4 + 9L;
      break L14;
     }
     if (l7 + Long.MIN_VALUE < -9223372036854775800L) { break L12; }
     if ((l3 & -9187201950435737472L) != 0L) { break L12; }
     l7 = l7 + -8L;
     l4 = l4 + 8L;
    }
    if (l7 + Long.MIN_VALUE > -9223372036854775806L) { continue L13; }
    break L13;
   }
  }
  L16: {
   if (l7 == 0L) { break L16; }
   if (l2 + Long.MIN_VALUE <= l4 + Long.MIN_VALUE) { break L16; }
   l7 = l7 + -1L;
   L17: while (true) {
    l4 = Words.get64(b, ((int) (((((b[((int) (l1 + l4)) - 58912] & 0xff) >>> 1) & 0xffffffffL) & 120L) + 66680L)) - 58912) + l4;
    if (l7 == 0L) { break L16; }
    l7 = l7 + -1L;
    if (l2 + Long.MIN_VALUE > l4 + Long.MIN_VALUE) { continue L17; }
    break L17;
   }
  }
  l7 = 0L;
  l3 = 83372L;
  L18: {
   if (l2 + Long.MIN_VALUE < l4 + Long.MIN_VALUE) { break L18; }
   if (l4 + Long.MIN_VALUE < l6 + Long.MIN_VALUE) { break L18; }
   L19: {
    if (l6 == l2) { break L19; }
    if (((int) b[((int) (l1 + l6)) - 58912]) < -64) { break L18; }
   }
   L20: {
    if (l4 == l2) { break L20; }
    if (((int) b[((int) (l1 + l4)) - 58912]) < -64) { break L18; }
   }
   l7 = l4 - l6;
   l3 = l1 + l6;
  }
  Words.put64(b, ((int) l0) - 58904, l7);
  Words.put64(b, ((int) l0) - 58912, l3);
  m.g0 = l5 + 32L;
  return;
 }
 throw State.trap();
}

static int f31_1(State m, long l3, int l4, long l5, long l6) {
 final byte[] b = m.bytes;
 int exit = 0;
 PART: {
  L21: while (true) {
   l4 = 1;
   if (((((((((0 - ((((((b[((int) l3) - 58896] & 0xff) != (b[((int) l5) - 58896] & 0xff)) | ((b[((int) l3) - 58912] & 0xff) != (b[((int) l5) - 58912] & 0xff))) | ((b[((int) l3) - 58880] & 0xff) != (b[((int) l5) - 58880] & 0xff))) | ((b[((int) l3) - 58864] & 0xff) != (b[((int) l5) - 58864] & 0xff))) ? 1 : 0)) < 0) ? 1 : 0) | ((((0 - ((((((b[((int) l3) - 58895] & 0xff) != (b[((int) l5) - 58895] & 0xff)) | ((b[((int) l3) - 58911] & 0xff) != (b[((int) l5) - 58911] & 0xff))) | ((b[((int) l3) - 58879] & 0xff) != (b[((int) l5) - 58879] & 0xff))) | ((b[((int) l3) - 58863] & 0xff) != (b[((int) l5) - 58863] & 0xff))) ? 1 : 0)) < 0) ? 1 : 0) << 1)) | (((((0 - ((((((b[((int) l3) - 58893] & 0xff) != (b[((int) l5) - 58893] & 0xff)) | ((b[((int) l3) - 58909] & 0xff) != (b[((int) l5) - 58909] & 0xff))) | ((b[((int) l3) - 58877] & 0xff) != (b[((int) l5) - 58877] & 0xff))) | ((b[((int) l3) - 58861] & 0xff) != (b[((int) l5) - 58861] & 0xff))) ? 1 : 0)) < 0) ? 1 : 0) << 3) | ((((0 - ((((((b[((int) l3) - 58894] & 0xff) != (b[((int) l5) - 58894] & 0xff)) | ((b[((int) l3) - 58910] & 0xff) != (b[((int) l5) - 58910] & 0xff))) | ((b[((int) l3) - 58878] & 0xff) != (b[((int) l5) - 58878] & 0xff))) | ((b[((int) l3) - 58862] & 0xff) != (b[((int) l5) - 58862] & 0xff))) ? 1 : 0)) < 0) ? 1 : 0) << 2))) | ((((((0 - ((((((b[((int) l3) - 58892] & 0xff) != (b[((int) l5) - 58892] & 0xff)) | ((b[((int) l3) - 58908] & 0xff) != (b[((int) l5) - 58908] & 0xff))) | ((b[((int) l3) - 58876] & 0xff) != (b[((int) l5) - 58876] & 0xff))) | ((b[((int) l3) - 58860] & 0xff) != (b[((int) l5) - 58860] & 0xff))) ? 1 : 0)) < 0) ? 1 : 0) | ((((0 - ((((((b[((int) l3) - 58891] & 0xff) != (b[((int) l5) - 58891] & 0xff)) | ((b[((int) l3) - 58907] & 0xff) != (b[((int) l5) - 58907] & 0xff))) | ((b[((int) l3) - 58875] & 0xff) != (b[((int) l5) - 58875] & 0xff))) | ((b[((int) l3) - 58859] & 0xff) != (b[((int) l5) - 58859] & 0xff))) ? 1 : 0)) < 0) ? 1 : 0) << 1)) | (((((0 - ((((((b[((int) l3) - 58889] & 0xff) != (b[((int) l5) - 58889] & 0xff)) | ((b[((int) l3) - 58905] & 0xff) != (b[((int) l5) - 58905] & 0xff))) | ((b[((int) l3) - 58873] & 0xff) != (b[((int) l5) - 58873] & 0xff))) | ((b[((int) l3) - 58857] & 0xff) != (b[((int) l5) - 58857] & 0xff))) ? 1 : 0)) < 0) ? 1 : 0) << 3) | ((((0 - ((((((b[((int) l3) - 58890] & 0xff) != (b[((int) l5) - 58890] & 0xff)) | ((b[((int) l3) - 58906] & 0xff) != (b[((int) l5) - 58906] & 0xff))) | ((b[((int) l3) - 58874] & 0xff) != (b[((int) l5) - 58874] & 0xff))) | ((b[((int) l3) - 58858] & 0xff) != (b[((int) l5) - 58858] & 0xff))) ? 1 : 0)) < 0) ? 1 : 0) << 2))) << 4)) | (((((((0 - ((((((b[((int) l3) - 58884] & 0xff) != (b[((int) l5) - 58884] & 0xff)) | ((b[((int) l3) - 58900] & 0xff) != (b[((int) l5) - 58900] & 0xff))) | ((b[((int) l3) - 58868] & 0xff) != (b[((int) l5) - 58868] & 0xff))) | ((b[((int) l3) - 58852] & 0xff) != (b[((int) l5) - 58852] & 0xff))) ? 1 : 0)) < 0) ? 1 : 0) | ((((0 - ((((((b[((int) l3) - 58883] & 0xff) != (b[((int) l5) - 58883] & 0xff)) | ((b[((int) l3) - 58899] & 0xff) != (b[((int) l5) - 58899] & 0xff))) | ((b[((int) l3) - 58867] & 0xff) != (b[((int) l5) - 58867] & 0xff))) | ((b[((int) l3) - 58851] & 0xff) != (b[((int) l5) - 58851] & 0xff))) ? 1 : 0)) < 0) ? 1 : 0) << 1)) | (((((0 - ((((((b[((int) l3) - 58881] & 0xff) != (b[((int) l5) - 58881] & 0xff)) | ((b[((int) l3) - 58897] & 0xff) != (b[((int) l5) - 58897] & 0xff))) | ((b[((int) l3) - 58865] & 0xff) != (b[((int) l5) - 58865] & 0xff))) | ((b[((int) l3) - 58849] & 0xff) != (b[((int) l5) - 58849] & 0xff))) ? 1 : 0)) < 0) ? 1 : 0) << 3) | ((((0 - ((((((b[((int) l3) - 58882] & 0xff) != (b[((int) l5) - 58882] & 0xff)) | ((b[((int) l3) - 58898] & 0xff) != (b[((int) l5) - 58898] & 0xff))) | ((b[((int) l3) - 58866] & 0xff) != (b[((int) l5) - 58866] & 0xff))) | ((b[((int) l3) - 58850] & 0xff) != (b[((int) l5) - 58850] & 0xff))) ? 1 : 0)) < 0) ? 1 : 0) << 2))) << 12) | ((((((0 - ((((((b[((int) l3) - 58888] & 0xff) != (b[((int) l5) - 58888] & 0xff)) | ((b[((int) l3) - 58904] & 0xff) != (b[((int) l5) - 58904] & 0xff))) | ((b[((int) l3) - 58872] & 0xff) != (b[((int) l5) - 58872] & 0xff))) | ((b[((int) l3) - 58856] & 0xff) != (b[((int) l5) - 58856] & 0xff))) ? 1 : 0)) < 0) ? 1 : 0) | ((((0 - ((((((b[((int) l3) - 58887] & 0xff) != (b[((int) l5) - 58887] & 0xff)) | ((b[((int) l3) - 58903] & 0xff) != (b[((int) l5) - 58903] & 0xff))) | ((b[((int) l3) - 58871] & 0xff) != (b[((int) l5) - 58871] & 0xff))) | ((b[((int) l3) - 58855] & 0xff) != (b[((int) l5) - 58855] & 0xff))) ? 1 : 0)) < 0) ? 1 : 0) << 1)) | (((((0 - ((((((b[((int) l3) - 58885] & 0xff) != (b[((int) l5) - 58885] & 0xff)) | ((b[((int) l3) - 58901] & 0xff) != (b[((int) l5) - 58901] & 0xff))) | ((b[((int) l3) - 58869] & 0xff) != (b[((int) l5) - 58869] & 0xff))) | ((b[((int) l3) - 58853] & 0xff) != (b[((int) l5) - 58853] & 0xff))) ? 1 : 0)) < 0) ? 1 : 0) << 3) | ((((0 - ((((((b[((int) l3) - 58886] & 0xff) != (b[((int) l5) - 58886] & 0xff)) | ((b[((int) l3) - 58902] & 0xff) != (b[((int) l5) - 58902] & 0xff))) | ((b[((int) l3) - 58870] & 0xff) != (b[((int) l5) - 58870] & 0xff))) | ((b[((int) l3) - 58854] & 0xff) != (b[((int) l5) - 58854] & 0xff))) ? 1 : 0)) < 0) ? 1 : 0) << 2))) << 8))) & 65535) != 0) { exit = 1; break PART; }
   l3 = l3 + 64L;
   l5 = l5 + 64L;
   if ((l6 = l6 + -64L) + Long.MIN_VALUE >= -9223372036854775743L) { continue L21; }
   break L21;
  }
 }
 m.kept[0] = l3;
 m.kept[1] = l4;
 m.kept[2] = l5;
 m.kept[3] = l6;
 return exit;
}

static int f31(State m, long l0, long l1, long l2, long l3) {
 final byte[] b = m.bytes;
 int l4 = 0;
 long l5 = 0;
 long l6 = 0;
 L1: {
  if (m.g0 < 16L) { break L1; }
  l4 = 0;
  L2: {
   if (l1 != l3) { break L2; }
   L3: {
    if (l1 + Long.MIN_VALUE > -9223372036854775801L) { break L3; }
    L4: {
     if (l1 + Long.MIN_VALUE < -9223372036854775804L) { break L4; }
     final int t5 = ((((((l5 = Words.get32(b, ((int) l0) - 58912) & 0xffffffffL) << 56L) | ((l5 & 65280L) << 40L)) | ((((l5 = (l0 = (l3 = Words.get32(b, ((int) (l0 + (l1 = l1 + -4L))) - 58912) & 0xffffffffL) << 32L) | l5) & 16711680L) << 24L) | ((l5 & 4278190080L) << 8L))) | ((((l3 << 24L) & 4278190080L) | ((l3 << 8L) & 16711680L)) | (((l3 >>> 8L) & 65280L) | (l0 >>> 56L)))) == (((((l5 = Words.get32(b, ((int) l2) - 58912) & 0xffffffffL) << 56L) | ((l5 & 65280L) << 40L)) | ((((l5 = (l2 = (l3 = Words.get32(b, ((int) (l2 + l1)) - 58912) & 0xffffffffL) << 32L) | l5) & 16711680L) << 24L) | ((l5 & 4278190080L) << 8L))) | ((((l3 << 24L) & 4278190080L) | ((l3 << 8L) & 16711680L)) | (((l3 >>> 8L) & 65280L) | (l2 >>> 56L))))) ? 1 : 0;
     return t5;
    }
    L6: {
     if (!(l1 == 0L)) { break L6; }
     final int t7 = (0L == 0L) ? 1 : 0;
     return t7;
    }
    final int t8 = (((((b[((int) (l0 + (l3 = l1 >>> 1L))) - 58912] & 0xffL) << 8L) | ((b[((int) l0) - 58912] & 0xffL) << 16L)) | (b[((int) (l0 + (l5 = l1 + -1L))) - 58912] & 0xffL)) == ((((b[((int) (l2 + l3)) - 58912] & 0xffL) << 8L) | ((b[((int) l2) - 58912] & 0xffL) << 16L)) | (b[((int) (l2 + l5)) - 58912] & 0xffL))) ? 1 : 0;
    return t8;
   }
   L9: {
    if (l1 + Long.MIN_VALUE > -9223372036854775776L) { break L9; }
    final int t10 = (Words.get64(b, ((int) l0) - 58912) == Words.get64(b, ((int) l2) - 58912)) ? 1 : 0;
    final long t11 = l0;
    final long t12 = l3 = l1 + -8L;
    final int t13 = (l3 + Long.MIN_VALUE < -9223372036854775800L) ? 1 : 0;
    final int t14 = ((t10 & ((Words.get64(b, ((int) (t11 + (l5 = t13 != 0 ? t12 : 8L))) - 58912) == Words.get64(b, ((int) (l2 + l5)) - 58912)) ? 1 : 0)) & ((Words.get64(b, ((int) (l0 + (l5 = (l3 + Long.MIN_VALUE < -9223372036854775792L) ? l3 : 16L))) - 58912) == Words.get64(b, ((int) (l2 + l5)) - 58912)) ? 1 : 0)) & ((Words.get64(b, ((int) (l0 + l3)) - 58912) == Words.get64(b, ((int) (l2 + l3)) - 58912)) ? 1 : 0);
    return t14;
   }
   l3 = l0;
   l5 = l2;
   l6 = l1;
   L15: {
    L16: {
     if (l1 + Long.MIN_VALUE >= -9223372036854775743L) { break L16; }
     final int t17 = (((b[((int) l0) - 58912] & 0xff) != (b[((int) l2) - 58912] & 0xff)) | ((b[((int) l0) - 58896] & 0xff) != (b[((int) l2) - 58896] & 0xff))) ? 1 : 0;
     final long t18 = l0;
     final long t19 = l6 = l1 + -16L;
     final int t20 = (l6 + Long.MIN_VALUE < -9223372036854775776L) ? 1 : 0;
     l4 = ((((((((((t17 | (((b[((int) (l3 = t18 + (l5 = t20 != 0 ? t19 : 32L))) - 58912] & 0xff) != (b[((int) (l5 = l2 + l5)) - 58912] & 0xff)) ? 1 : 0)) | (((b[((int) (l1 = l0 + l6)) - 58912] & 0xff) != (b[((int) (l6 = l2 + l6)) - 58912] & 0xff)) ? 1 : 0)) | (((((((b[((int) l0) - 58911] & 0xff) != (b[((int) l2) - 58911] & 0xff)) | ((b[((int) l0) - 58895] & 0xff) != (b[((int) l2) - 58895] & 0xff))) | ((b[((int) l3) - 58911] & 0xff) != (b[((int) l5) - 58911] & 0xff))) | ((b[((int) l1) - 58911] & 0xff) != (b[((int) l6) - 58911] & 0xff))) ? 1 : 0) << 1)) | ((((((((b[((int) l0) - 58909] & 0xff) != (b[((int) l2) - 58909] & 0xff)) | ((b[((int) l0) - 58893] & 0xff) != (b[((int) l2) - 58893] & 0xff))) | ((b[((int) l3) - 58909] & 0xff) != (b[((int) l5) - 58909] & 0xff))) | ((b[((int) l1) - 58909] & 0xff) != (b[((int) l6) - 58909] & 0xff))) ? 1 : 0) << 3) | (((((((b[((int) l0) - 58910] & 0xff) != (b[((int) l2) - 58910] & 0xff)) | ((b[((int) l0) - 58894] & 0xff) != (b[((int) l2) - 58894] & 0xff))) | ((b[((int) l3) - 58910] & 0xff) != (b[((int) l5) - 58910] & 0xff))) | ((b[((int) l1) - 58910] & 0xff) != (b[((int) l6) - 58910] & 0xff))) ? 1 : 0) << 2))) & 15) | (((((((((b[((int) l0) - 58908] & 0xff) != (b[((int) l2) - 58908] & 0xff)) | ((b[((int) l0) - 58892] & 0xff) != (b[((int) l2) - 58892] & 0xff))) | ((b[((int) l3) - 58908] & 0xff) != (b[((int) l5) - 58908] & 0xff))) | ((b[((int) l1) - 58908] & 0xff) != (b[((int) l6) - 58908] & 0xff))) ? 1 : 0) | (((((((b[((int) l0) - 58907] & 0xff) != (b[((int) l2) - 58907] & 0xff)) | ((b[((int) l0) - 58891] & 0xff) != (b[((int) l2) - 58891] & 0xff))) | ((b[((int) l3) - 58907] & 0xff) != (b[((int) l5) - 58907] & 0xff))) | ((b[((int) l1) - 58907] & 0xff) != (b[((int) l6) - 58907] & 0xff))) ? 1 : 0) << 1)) | ((((((((b[((int) l0) - 58905] & 0xff) != (b[((int) l2) - 58905] & 0xff)) | ((b[((int) l0) - 58889] & 0xff) != (b[((int) l2) - 58889] & 0xff))) | ((b[((int) l3) - 58905] & 0xff) != (b[((int) l5) - 58905] & 0xff))) | ((b[((int) l1) - 58905] & 0xff) != (b[((int) l6) - 58905] & 0xff))) ? 1 : 0) << 3) | (((((((b[((int) l0) - 58906] & 0xff) != (b[((int) l2) - 58906] & 0xff)) | ((b[((int) l0) - 58890] & 0xff) != (b[((int) l2) - 58890] & 0xff))) | ((b[((int) l3) - 58906] & 0xff) != (b[((int) l5) - 58906] & 0xff))) | ((b[((int) l1) - 58906] & 0xff) != (b[((int) l6) - 58906] & 0xff))) ? 1 : 0) << 2))) << 4)) & 255) | ((((((((((b[((int) l0) - 58900] & 0xff) != (b[((int) l2) - 58900] & 0xff)) | ((b[((int) l0) - 58884] & 0xff) != (b[((int) l2) - 58884] & 0xff))) | ((b[((int) l3) - 58900] & 0xff) != (b[((int) l5) - 58900] & 0xff))) | ((b[((int) l1) - 58900] & 0xff) != (b[((int) l6) - 58900] & 0xff))) ? 1 : 0) | (((((((b[((int) l0) - 58899] & 0xff) != (b[((int) l2) - 58899] & 0xff)) | ((b[((int) l0) - 58883] & 0xff) != (b[((int) l2) - 58883] & 0xff))) | ((b[((int) l3) - 58899] & 0xff) != (b[((int) l5) - 58899] & 0xff))) | ((b[((int) l1) - 58899] & 0xff) != (b[((int) l6) - 58899] & 0xff))) ? 1 : 0) << 1)) | ((((((((b[((int) l0) - 58897] & 0xff) != (b[((int) l2) - 58897] & 0xff)) | ((b[((int) l0) - 58881] & 0xff) != (b[((int) l2) - 58881] & 0xff))) | ((b[((int) l3) - 58897] & 0xff) != (b[((int) l5) - 58897] & 0xff))) | ((b[((int) l1) - 58897] & 0xff) != (b[((int) l6) - 58897] & 0xff))) ? 1 : 0) << 3) | (((((((b[((int) l0) - 58898] & 0xff) != (b[((int) l2) - 58898] & 0xff)) | ((b[((int) l0) - 58882] & 0xff) != (b[((int) l2) - 58882] & 0xff))) | ((b[((int) l3) - 58898] & 0xff) != (b[((int) l5) - 58898] & 0xff))) | ((b[((int) l1) - 58898] & 0xff) != (b[((int) l6) - 58898] & 0xff))) ? 1 : 0) << 2))) << 12) | ((((((((((b[((int) l0) - 58904] & 0xff) != (b[((int) l2) - 58904] & 0xff)) | ((b[((int) l0) - 58888] & 0xff) != (b[((int) l2) - 58888] & 0xff))) | ((b[((int) l3) - 58904] & 0xff) != (b[((int) l5) - 58904] & 0xff))) | ((b[((int) l1) - 58904] & 0xff) != (b[((int) l6) - 58904] & 0xff))) ? 1 : 0) | (((((((b[((int) l0) - 58903] & 0xff) != (b[((int) l2) - 58903] & 0xff)) | ((b[((int) l0) - 58887] & 0xff) != (b[((int) l2) - 58887] & 0xff))) | ((b[((int) l3) - 58903] & 0xff) != (b[((int) l5) - 58903] & 0xff))) | ((b[((int) l1) - 58903] & 0xff) != (b[((int) l6) - 58903] & 0xff))) ? 1 : 0) << 1)) | ((((((((b[((int) l0) - 58901] & 0xff) != (b[((int) l2) - 58901] & 0xff)) | ((b[((int) l0) - 58885] & 0xff) != (b[((int) l2) - 58885] & 0xff))) | ((b[((int) l3) - 58901] & 0xff) != (b[((int) l5) - 58901] & 0xff))) | ((b[((int) l1) - 58901] & 0xff) != (b[((int) l6) - 58901] & 0xff))) ? 1 : 0) << 3) | (((((((b[((int) l0) - 58902] & 0xff) != (b[((int) l2) - 58902] & 0xff)) | ((b[((int) l0) - 58886] & 0xff) != (b[((int) l2) - 58886] & 0xff))) | ((b[((int) l3) - 58902] & 0xff) != (b[((int) l5) - 58902] & 0xff))) | ((b[((int) l1) - 58902] & 0xff) != (b[((int) l6) - 58902] & 0xff))) ? 1 : 0) << 2))) & 15) << 8))) & 65535) != 0) ? 1 : 0;
     break L15;
    }
    final int x22 = f31_1(m, l3, l4, l5, l6);
    l3 = m.kept[0];
    l4 = (int) m.kept[1];
    l5 = m.kept[2];
    l6 = m.kept[3];
    switch (x22) {
    case 1: break L15;
    }
    l4 = (((((((((0 - ((((((b[((int) (l3 = l0 + (l5 = l1 + -64L))) - 58896] & 0xff) != (b[((int) (l5 = l2 + l5)) - 58896] & 0xff)) | ((b[((int) l3) - 58912] & 0xff) != (b[((int) l5) - 58912] & 0xff))) | ((b[((int) l3) - 58880] & 0xff) != (b[((int) l5) - 58880] & 0xff))) | ((b[((int) l3) - 58864] & 0xff) != (b[((int) l5) - 58864] & 0xff))) ? 1 : 0)) < 0) ? 1 : 0) | ((((0 - ((((((b[((int) l3) - 58895] & 0xff) != (b[((int) l5) - 58895] & 0xff)) | ((b[((int) l3) - 58911] & 0xff) != (b[((int) l5) - 58911] & 0xff))) | ((b[((int) l3) - 58879] & 0xff) != (b[((int) l5) - 58879] & 0xff))) | ((b[((int) l3) - 58863] & 0xff) != (b[((int) l5) - 58863] & 0xff))) ? 1 : 0)) < 0) ? 1 : 0) << 1)) | (((((0 - ((((((b[((int) l3) - 58893] & 0xff) != (b[((int) l5) - 58893] & 0xff)) | ((b[((int) l3) - 58909] & 0xff) != (b[((int) l5) - 58909] & 0xff))) | ((b[((int) l3) - 58877] & 0xff) != (b[((int) l5) - 58877] & 0xff))) | ((b[((int) l3) - 58861] & 0xff) != (b[((int) l5) - 58861] & 0xff))) ? 1 : 0)) < 0) ? 1 : 0) << 3) | ((((0 - ((((((b[((int) l3) - 58894] & 0xff) != (b[((int) l5) - 58894] & 0xff)) | ((b[((int) l3) - 58910] & 0xff) != (b[((int) l5) - 58910] & 0xff))) | ((b[((int) l3) - 58878] & 0xff) != (b[((int) l5) - 58878] & 0xff))) | ((b[((int) l3) - 58862] & 0xff) != (b[((int) l5) - 58862] & 0xff))) ? 1 : 0)) < 0) ? 1 : 0) << 2))) | ((((((0 - ((((((b[((int) l3) - 58892] & 0xff) != (b[((int) l5) - 58892] & 0xff)) | ((b[((int) l3) - 58908] & 0xff) != (b[((int) l5) - 58908] & 0xff))) | ((b[((int) l3) - 58876] & 0xff) != (b[((int) l5) - 58876] & 0xff))) | ((b[((int) l3) - 58860] & 0xff) != (b[((int) l5) - 58860] & 0xff))) ? 1 : 0)) < 0) ? 1 : 0) | ((((0 - ((((((b[((int) l3) - 58891] & 0xff) != (b[((int) l5) - 58891] & 0xff)) | ((b[((int) l3) - 58907] & 0xff) != (b[((int) l5) - 58907] & 0xff))) | ((b[((int) l3) - 58875] & 0xff) != (b[((int) l5) - 58875] & 0xff))) | ((b[((int) l3) - 58859] & 0xff) != (b[((int) l5) - 58859] & 0xff))) ? 1 : 0)) < 0) ? 1 : 0) << 1)) | (((((0 - ((((((b[((int) l3) - 58889] & 0xff) != (b[((int) l5) - 58889] & 0xff)) | ((b[((int) l3) - 58905] & 0xff) != (b[((int) l5) - 58905] & 0xff))) | ((b[((int) l3) - 58873] & 0xff) != (b[((int) l5) - 58873] & 0xff))) | ((b[((int) l3) - 58857] & 0xff) != (b[((int) l5) - 58857] & 0xff))) ? 1 : 0)) < 0) ? 1 : 0) << 3) | ((((0 - ((((((b[((int) l3) - 58890] & 0xff) != (b[((int) l5) - 58890] & 0xff)) | ((b[((int) l3) - 58906] & 0xff) != (b[((int) l5) - 58906] & 0xff))) | ((b[((int) l3) - 58874] & 0xff) != (b[((int) l5) - 58874] & 0xff))) | ((b[((int) l3) - 58858] & 0xff) != (b[((int) l5) - 58858] & 0xff))) ? 1 : 0)) < 0) ? 1 : 0) << 2))) << 4)) | (((((((0 - ((((((b[((int) l3) - 58884] & 0xff) != (b[((int) l5) - 58884] & 0xff)) | ((b[((int) l3) - 58900] & 0xff) != (b[((int) l5) - 58900] & 0xff))) | ((b[((int) l3) - 58868] & 0xff) != (b[((int) l5) - 58868] & 0xff))) | ((b[((int) l3) - 58852] & 0xff) != (b[((int) l5) - 58852] & 0xff))) ? 1 : 0)) < 0) ? 1 : 0) | ((((0 - ((((((b[((int) l3) - 58883] & 0xff) != (b[((int) l5) - 58883] & 0xff)) | ((b[((int) l3) - 58899] & 0xff) != (b[((int) l5) - 58899] & 0xff))) | ((b[((int) l3) - 58867] & 0xff) != (b[((int) l5) - 58867] & 0xff))) | ((b[((int) l3) - 58851] & 0xff) != (b[((int) l5) - 58851] & 0xff))) ? 1 : 0)) < 0) ? 1 : 0) << 1)) | (((((0 - ((((((b[((int) l3) - 58881] & 0xff) != (b[((int) l5) - 58881] & 0xff)) | ((b[((int) l3) - 58897] & 0xff) != (b[((int) l5) - 58897] & 0xff))) | ((b[((int) l3) - 58865] & 0xff) != (b[((int) l5) - 58865] & 0xff))) | ((b[((int) l3) - 58849] & 0xff) != (b[((int) l5) - 58849] & 0xff))) ? 1 : 0)) < 0) ? 1 : 0) << 3) | ((((0 - ((((((b[((int) l3) - 58882] & 0xff) != (b[((int) l5) - 58882] & 0xff)) | ((b[((int) l3) - 58898] & 0xff) != (b[((int) l5) - 58898] & 0xff))) | ((b[((int) l3) - 58866] & 0xff) != (b[((int) l5) - 58866] & 0xff))) | ((b[((int) l3) - 58850] & 0xff) != (b[((int) l5) - 58850] & 0xff))) ? 1 : 0)) < 0) ? 1 : 0) << 2))) << 12) | ((((((0 - ((((((b[((int) l3) - 58888] & 0xff) != (b[((int) l5) - 58888] & 0xff)) | ((b[((int) l3) - 58904] & 0xff) != (b[((int) l5) - 58904] & 0xff))) | ((b[((int) l3) - 58872] & 0xff) != (b[((int) l5) - 58872] & 0xff))) | ((b[((int) l3) - 58856] & 0xff) != (b[((int) l5) - 58856] & 0xff))) ? 1 : 0)) < 0) ? 1 : 0) | ((((0 - ((((((b[((int) l3) - 58887] & 0xff) != (b[((int) l5) - 58887] & 0xff)) | ((b[((int) l3) - 58903] & 0xff) != (b[((int) l5) - 58903] & 0xff))) | ((b[((int) l3) - 58871] & 0xff) != (b[((int) l5) - 58871] & 0xff))) | ((b[((int) l3) - 58855] & 0xff) != (b[((int) l5) - 58855] & 0xff))) ? 1 : 0)) < 0) ? 1 : 0) << 1)) | (((((0 - ((((((b[((int) l3) - 58885] & 0xff) != (b[((int) l5) - 58885] & 0xff)) | ((b[((int) l3) - 58901] & 0xff) != (b[((int) l5) - 58901] & 0xff))) | ((b[((int) l3) - 58869] & 0xff) != (b[((int) l5) - 58869] & 0xff))) | ((b[((int) l3) - 58853] & 0xff) != (b[((int) l5) - 58853] & 0xff))) ? 1 : 0)) < 0) ? 1 : 0) << 3) | ((((0 - ((((((b[((int) l3) - 58886] & 0xff) != (b[((int) l5) - 58886] & 0xff)) | ((b[((int) l3) - 58902] & 0xff) != (b[((int) l5) - 58902] & 0xff))) | ((b[((int) l3) - 58870] & 0xff) != (b[((int) l5) - 58870] & 0xff))) | ((b[((int) l3) - 58854] & 0xff) != (b[((int) l5) - 58854] & 0xff))) ? 1 : 0)) < 0) ? 1 : 0) << 2))) << 8))) & 65535) != 0) ? 1 : 0;
   }
   l4 = l4 ^ 1;
  }
  final int t23 = l4;
  return t23;
 }
 throw State.trap();
}

static void f32(State m, long l0, int l1) {
 final byte[] b = m.bytes;
 int l2 = 0;
 int l3 = 0;
 L1: {
  L2: {
   L3: {
    L4: {
     L5: {
      L6: {
       if (m.g0 < 16L) { break L6; }
       l2 = 38646;
       l3 = 1;
       L7: {
        L8: {
         L9: {
          L10: {
           L11: {
            L12: {
             L13: {
              L14: {
               L15: {
                L16: {
                 L17: {
                  L18: {
                   L19: {
                    L20: {
                     L21: {
                      L22: {
                       if (l1 > 21494) { break L22; }
                       L23: {
                        if (l1 > 19967) { break L23; }
                        L24: {
                         if (l1 > 8721) { break L24; }
                         l3 = 1;
                         switch (l1 + -45) {
                         case 0: break L3;
                         case 3: case 34: case 66: break L1;
                         case 4: break L21;
                         case 5: break L20;
                         case 6: break L7;
                         case 7: break L4;
                         case 8: break L19;
                         case 9: break L17;
                         case 10: break L16;
                         case 11: break L15;
                         case 12: break L14;
                         default: break L8;
                         }
                        }
                        if (l1 == 8722) { break L3; }
                        if (l1 == 9675) { break L1; }
                        if (l1 != 12295) { break L8; }
                        break L1;
                       }
                       L25: {
                        if (l1 > 20456) { break L25; }
                        L26: {
                         if (l1 > 20060) { break L26; }
                         switch (l1 + -19968) {
                         case 0: break L21;
                         case 3: break L16;
                         case 9: break L7;
                         case 36: break L20;
                         default: break L8;
                         }
                        }
                        L27: {
                         switch (l1 + -20108) {
                         case 0: break L20;
                         case 1: case 2: case 3: case 4: case 5: case 6: case 7: break L8;
                         case 8: break L19;
                         default: break L27;
                         }
                        }
                        if (l1 == 20061) { break L14; }
                        if (l1 != 20184) { break L8; }
                        break L3;
                       }
                       L28: {
                        if (l1 > 21312) { break L28; }
                        L29: {
                         switch (l1 + -20841) {
                         case 0: break L20;
                         case 1: case 3: break L8;
                         case 2: break L15;
                         case 4: break L17;
                         default: break L29;
                         }
                        }
                        if (l1 == 20457) { break L20; }
                        if (l1 != 20740) { break L8; }
                        l2 = 20159;
                        break L1;
                       }
                       switch (l1 + -21313) {
                       case 0: break L13;
                       case 2: break L12;
                       default: break L8;
                       }
                      }
                      L30: {
                       if (l1 > 35999) { break L30; }
                       L31: {
                        L32: {
                         if (l1 > 24331) { break L32; }
                         L33: {
                          if (l1 > 22277) { break L33; }
                          if (l1 == 21495) { break L31; }
                          if (l1 != 22235) { break L8; }
                          break L4;
                         }
                         L34: {
                          L35: {
                           switch (l1 + -22278) {
                           case 0: case 13: break L34;
                           case 1: case 2: case 3: case 4: case 5: case 6: case 7: case 8: case 9: case 10: case 11: case 12: break L8;
                           default: break L35;
                           }
                          }
                          if (l1 == 22359) { break L34; }
                          if (l1 != 22602) { break L8; }
                         }
                         l2 = 20803;
                         break L1;
                        }
                        L36: {
                         if (l1 > 27610) { break L36; }
                         switch (l1 + -24332) {
                         case 0: break L21;
                         case 1: case 4: break L20;
                         case 2: break L7;
                         case 3: break L8;
                         default: break L9;
                         }
                        }
                        L37: {
                         if (l1 > 33835) { break L37; }
                         if (l1 == 27611) { break L10; }
                         if (l1 != 30334) { break L8; }
                         l2 = 20336;
                         break L1;
                        }
                        if (l1 == 33836) { break L11; }
                        if (l1 != 34399) { break L8; }
                       }
                       l2 = 26085;
                       break L1;
                      }
                      l3 = 1;
                      L38: {
                       switch (l1 + -65293) {
                       case 0: break L3;
                       case 1: case 2: break L8;
                       case 3: break L1;
                       case 4: break L21;
                       case 5: break L20;
                       case 6: break L7;
                       case 7: break L4;
                       case 8: break L19;
                       case 9: break L17;
                       case 10: break L16;
                       case 11: break L15;
                       case 12: break L14;
                       default: break L38;
                       }
                      }
                      switch (l1 + -36000) {
                      case 0: break L3;
                      case 1: case 2: case 3: case 4: case 5: case 6: case 7: case 8: case 9: case 10: case 11: case 12: case 13: case 14: case 15: case 16: case 17: case 18: break L8;
                      case 19: break L20;
                      default: break L18;
                      }
                     }
                     l2 = 22777;
                     break L2;
                    }
                    l2 = 36144;
                    break L2;
                   }
                   l2 = 20237;
                   break L2;
                  }
                  if (l1 != 38520) { break L8; }
                 }
                 l2 = 38470;
                 break L2;
                }
                l2 = 26578;
                break L2;
               }
               l2 = 25420;
               break L2;
              }
              l2 = 29590;
              break L2;
             }
             l2 = 25342;
             break L1;
            }
            l2 = 20191;
            break L1;
           }
           l2 = 19975;
           break L1;
          }
          l2 = 35282;
          break L1;
         }
         if (l1 == 27491) { break L5; }
        }
        l3 = 0;
        l2 = 0;
        if ((l1 + -21442) + Integer.MIN_VALUE > -2147483646) { break L1; }
       }
       l2 = 21441;
       break L2;
      }
      throw State.trap();
     }
     l2 = 25972;
     break L1;
    }
    l2 = 32902;
    break L2;
   }
   l2 = 36127;
  }
  l3 = 1;
 }
 Words.put32(b, ((int) l0) - 58908, l2);
 b[((int) l0) - 58912] = (byte) l3;
}

static void f33(State m, long l0, long l1, long l2, int l3, int l4) {
 final byte[] b = m.bytes;
 long l5 = 0;
 long l6 = 0;
 long l7 = 0;
 int l8 = 0;
 m.g0 = l5 = m.g0 - 16L;
 L1: {
  L2: {
   if ((l5 = l5) < 16L) { break L2; }
   L3: {
    L4: {
     L5: {
      L6: {
       if ((l3 & 255) != 1) { break L6; }
       if (l4 == 25972) { break L4; }
       if (l4 == 27491) { break L4; }
       l3 = 0;
       l6 = 0L;
       if (l4 == 38646) { break L5; }
       l7 = 0L;
       break L3;
      }
      Words.put64(b, ((int) l0) - 58896, 0L);
      Words.put64(b, ((int) l0) - 58904, 0L);
      Words.put64(b, ((int) l0) - 58912, 0L);
      break L1;
     }
     L7: {
      L8: {
       if ((b[((int) (l1 + 32L)) - 58912] & 0xff) != 1) { break L8; }
       f32(m, l5 + 8L, l8 = Words.get32(b, ((int) (l1 + 36L)) - 58912));
       L9: {
        L10: {
         final int t11 = Words.get32(b, ((int) l5) - 58900);
         final int t12 = l8;
         final int t13 = (b[((int) l5) - 58904] & 0xff) & 1;
         if ((l4 = t13 != 0 ? t11 : t12) > 26577) { break L10; }
         L14: {
          if (l4 > 22776) { break L14; }
          L15: {
           if (l4 != 20237) { break L15; }
           l7 = 0L;
           break L3;
          }
          if (l4 != 21441) { break L9; }
          l7 = 0L;
          break L3;
         }
         L16: {
          if (l4 != 22777) { break L16; }
          l7 = 0L;
          break L3;
         }
         if (l4 != 25420) { break L9; }
         l7 = 0L;
         break L3;
        }
        L17: {
         if (l4 > 32901) { break L17; }
         L18: {
          if (l4 != 26578) { break L18; }
          l7 = 0L;
          break L3;
         }
         if (l4 != 29590) { break L9; }
         l7 = 0L;
         break L3;
        }
        L19: {
         if (l4 != 32902) { break L19; }
         l7 = 0L;
         break L3;
        }
        L20: {
         if (l4 != 36144) { break L20; }
         l7 = 0L;
         break L3;
        }
        if (l4 != 38470) { break L9; }
        l7 = 0L;
        break L3;
       }
       if ((l8 + -58) + Integer.MIN_VALUE <= 2147483637) { break L7; }
       l7 = 0L;
       break L3;
      }
      Words.put64(b, ((int) l0) - 58896, 0L);
      Words.put64(b, ((int) l0) - 58904, 0L);
      Words.put64(b, ((int) l0) - 58912, 0L);
      break L1;
     }
     l7 = 0L;
     if ((l8 + -65306) + Integer.MIN_VALUE >= 2147483638) { break L3; }
    }
    final long t21 = l6 = (l1 = Words.get64(b, ((int) l1) - 58912)) - l2;
    final int t22 = (l6 + Long.MIN_VALUE > l1 + Long.MIN_VALUE) ? 1 : 0;
    l7 = t22 != 0 ? 0L : t21;
    l3 = ((l4 = (l1 + Long.MIN_VALUE >= l2 + Long.MIN_VALUE) ? 1 : 0) != 0) ? 2 : 0;
    l6 = l4 & 0xffffffffL;
   }
   Words.put64(b, ((int) l0) - 58912, l6);
   Words.put32(b, ((int) (l0 + 20L)) - 58912, 0);
   Words.put32(b, ((int) (l0 + 16L)) - 58912, l3);
   Words.put64(b, ((int) (l0 + 8L)) - 58912, l7);
   break L1;
  }
  throw State.trap();
 }
 m.g0 = l5 + 16L;
}

static int f34(State m, int l0) {
 final byte[] b = m.bytes;
 long l1 = 0;
 int l2 = 0;
 int l3 = 0;
 m.g0 = l1 = m.g0 - 16L;
 L1: {
  if ((l1 = l1) < 16L) { break L1; }
  f32(m, l1 + 8L, l0);
  l2 = 1;
  L2: {
   L3: {
    L4: {
     final int t5 = Words.get32(b, ((int) l1) - 58900);
     final int t6 = l0;
     final int t7 = (b[((int) l1) - 58904] & 0xff) & 1;
     if ((l3 = t7 != 0 ? t5 : t6) > 26577) { break L4; }
     L8: {
      if (l3 > 22776) { break L8; }
      if (l3 == 20237) { break L2; }
      if (l3 != 21441) { break L3; }
      break L2;
     }
     if (l3 == 22777) { break L2; }
     if (l3 != 25420) { break L3; }
     break L2;
    }
    L9: {
     if (l3 > 32901) { break L9; }
     if (l3 == 26578) { break L2; }
     if (l3 != 29590) { break L3; }
     break L2;
    }
    if (l3 == 32902) { break L2; }
    if (l3 == 36144) { break L2; }
    if (l3 == 38470) { break L2; }
   }
   if ((l0 + -48) + Integer.MIN_VALUE < -2147483638) { break L2; }
   if ((l0 + -65296) + Integer.MIN_VALUE < -2147483638) { break L2; }
   L10: {
    L11: {
     L12: {
      if (l3 > 20997) { break L12; }
      L13: {
       if (l3 > 20190) { break L13; }
       if (l3 == 19975) { break L10; }
       if (l3 != 20159) { break L11; }
       break L10;
      }
      if (l3 == 20191) { break L10; }
      if (l3 != 20336) { break L11; }
      break L10;
     }
     L14: {
      if (l3 > 35281) { break L14; }
      if (l3 == 20998) { break L10; }
      if (l3 != 25342) { break L11; }
      break L10;
     }
     if (l3 == 35282) { break L10; }
     if (l3 == 36127) { break L10; }
    }
    l2 = 0;
    if (l3 + Integer.MIN_VALUE < -2147483608) { break L2; }
    if (l3 + Integer.MIN_VALUE < -2147483606) { break L10; }
    if ((l3 & -2) != 65288) { break L2; }
   }
   l2 = 1;
  }
  m.g0 = l1 + 16L;
  final int t15 = l2;
  return t15;
 }
 throw State.trap();
}

static int f35(State m, long l0, int l1) {
 final byte[] b = m.bytes;
 int l2 = 0;
 int l3 = 0;
 L1: {
  if (m.g0 < 16L) { break L1; }
  l2 = 0;
  L2: {
   if ((b[((int) (l0 + 8L)) - 58912] & 0xff) != 1) { break L2; }
   L3: {
    if (((l3 = Words.get32(b, ((int) (l0 + 12L)) - 58912)) + -48) + Integer.MIN_VALUE < -2147483638) { break L3; }
    if ((l3 + -65296) + Integer.MIN_VALUE > -2147483639) { break L2; }
   }
   l2 = 1;
   if (((l1 & -33) + -65) + Integer.MIN_VALUE < -2147483622) { break L2; }
   if (l1 == 37) { break L2; }
   if (l1 == 8240) { break L2; }
   if (l1 == 65285) { break L2; }
   l2 = 0;
  }
  final int t4 = l2;
  return t4;
 }
 throw State.trap();
}

static int f36_1(State m, long l2, long l3, long l4, long l5, long l6, long l7, long l8, long l9, long l10, long l11, long l12, long l13, int l21, int l22, int l23, int l24, int l25) {
 final byte[] b = m.bytes;
 int exit = 0;
 PART: {
  L33: {
   L34: {
    L35: {
     L36: {
      L37: {
       L38: {
        L39: {
         L40: {
          L41: {
           L42: {
            L43: {
             L44: {
              L45: {
               L46: {
                L47: {
                 L48: {
                  L49: {
                   if ((l23 & 255) != 0) { break L49; }
                   l6 = 0L;
                   Words.put64(b, ((int) l5) - 58792, 0L);
                   Words.put64(b, ((int) l5) - 58800, 0L);
                   Words.put64(b, ((int) l5) - 58808, 0L);
                   Words.put64(b, ((int) l5) - 58816, 0L);
                   L50: {
                    if (l24 != 0) { break L50; }
                    l4 = l2;
                    break L42;
                   }
                   l6 = 0L;
                   L51: {
                    if (l8 == l10) { break L51; }
                    l6 = 1L;
                    L52: while (true) {
                     L53: {
                      L54: {
                       if ((l21 = b[((int) l3) - 58912] & 0xff) + Integer.MIN_VALUE > -2147483616) { break L54; }
                       l4 = 1L;
                       if (((1L << (l21 & 0xffffffffL)) & 4294983168L) != 0L) { break L53; }
                      }
                      L55: {
                       if (l21 != 194) { break L55; }
                       l4 = 1L;
                       l21 = b[((int) l3) - 58911] & 0xff;
                       L56: {
                        if (l2 != 1L) { break L56; }
                        l22 = l21 & 63;
                        l21 = 194;
                        break L45;
                       }
                       l4 = 2L;
                       if (l21 == 133) { break L53; }
                       if (l21 == 160) { break L53; }
                       break L48;
                      }
                      if (l2 + Long.MIN_VALUE < -9223372036854775805L) { break L48; }
                      if (((l21 + 28) & 255) + Integer.MIN_VALUE < -2147483395) { break L48; }
                      l23 = b[((int) (l3 + 1L)) - 58912] & 0xff;
                      l22 = (int) (byte) (l24 = b[((int) (l3 + 2L)) - 58912] & 0xff);
                      L57: {
                       if (l21 != 226) { break L57; }
                       if ((l23 & 255) != 128) { break L57; }
                       l4 = 3L;
                       if (l22 < -117) { break L53; }
                       if ((l21 = l24 + -168) + Integer.MIN_VALUE > -2147483641) { break L47; }
                       if (((1 << l21) & 131) == 0) { break L47; }
                       break L53;
                      }
                      L58: {
                       L59: {
                        L60: {
                         L61: {
                          switch (l21 + -225) {
                          case 1: break L60;
                          case 2: break L59;
                          default: break L61;
                          }
                         }
                         if ((l23 & 255) != 154) { break L47; }
                         if (l22 != -128) { break L47; }
                         break L58;
                        }
                        if ((l23 & 255) != 129) { break L47; }
                        if (l22 == -97) { break L58; }
                        break L47;
                       }
                       if ((l23 & 255) != 128) { break L47; }
                       if (l22 != -128) { break L47; }
                      }
                      l4 = 3L;
                     }
                     l6 = l6 + 1L;
                     l3 = l3 + l4;
                     if (!((l2 = l2 - l4) == 0L)) { continue L52; }
                     break L52;
                    }
                    l6 = l6 + -1L;
                   }
                   l4 = 0L;
                   break L42;
                  }
                  l23 = l21 != 0 ? 0 : l22;
                  l6 = 0L;
                  Words.put64(b, ((int) l5) - 58792, 0L);
                  Words.put64(b, ((int) l5) - 58800, 0L);
                  Words.put64(b, ((int) l5) - 58808, 0L);
                  Words.put64(b, ((int) l5) - 58816, 0L);
                  L62: {
                   L63: {
                    L64: {
                     L65: {
                      L66: {
                       if (l24 != 0) { break L66; }
                       l4 = l2;
                       break L65;
                      }
                      l6 = 0L;
                      L67: {
                       L68: {
                        L69: {
                         L70: {
                          L71: {
                           L72: {
                            L73: {
                             if (l8 == l10) { break L73; }
                             l6 = 1L;
                             L74: while (true) {
                              L75: {
                               L76: {
                                if ((l21 = b[((int) l3) - 58912] & 0xff) + Integer.MIN_VALUE > -2147483616) { break L76; }
                                l4 = 1L;
                                if (((1L << (l21 & 0xffffffffL)) & 4294983168L) != 0L) { break L75; }
                               }
                               L77: {
                                if (l21 != 194) { break L77; }
                                l4 = 1L;
                                l21 = b[((int) l3) - 58911] & 0xff;
                                L78: {
                                 if (l2 != 1L) { break L78; }
                                 l24 = l21 & 63;
                                 l21 = 194;
                                 break L69;
                                }
                                l4 = 2L;
                                if (l21 == 133) { break L75; }
                                if (l21 == 160) { break L75; }
                                break L72;
                               }
                               if (l2 + Long.MIN_VALUE < -9223372036854775805L) { break L72; }
                               if (((l21 + 28) & 255) + Integer.MIN_VALUE < -2147483395) { break L72; }
                               l22 = b[((int) (l3 + 1L)) - 58912] & 0xff;
                               l24 = (int) (byte) (l25 = b[((int) (l3 + 2L)) - 58912] & 0xff);
                               L79: {
                                if (l21 != 226) { break L79; }
                                if ((l22 & 255) != 128) { break L79; }
                                l4 = 3L;
                                if (l24 < -117) { break L75; }
                                if ((l21 = l25 + -168) + Integer.MIN_VALUE > -2147483641) { break L71; }
                                if (((1 << l21) & 131) == 0) { break L71; }
                                break L75;
                               }
                               L80: {
                                L81: {
                                 L82: {
                                  L83: {
                                   switch (l21 + -225) {
                                   case 1: break L82;
                                   case 2: break L81;
                                   default: break L83;
                                   }
                                  }
                                  if ((l22 & 255) != 154) { break L71; }
                                  if (l24 != -128) { break L71; }
                                  break L80;
                                 }
                                 if ((l22 & 255) != 129) { break L71; }
                                 if (l24 == -97) { break L80; }
                                 break L71;
                                }
                                if ((l22 & 255) != 128) { break L71; }
                                if (l24 != -128) { break L71; }
                               }
                               l4 = 3L;
                              }
                              l6 = l6 + 1L;
                              l3 = l3 + l4;
                              if (!((l2 = l2 - l4) == 0L)) { continue L74; }
                              break L74;
                             }
                             l6 = l6 + -1L;
                            }
                            l4 = 0L;
                            break L65;
                           }
                           if (l2 + Long.MIN_VALUE >= -9223372036854775805L) { break L71; }
                           l22 = b[((int) l3) - 58912] & 0xff;
                           break L70;
                          }
                          if (((l22 = b[((int) l3) - 58912] & 0xff) & 240) != 224) { break L70; }
                          l21 = (((b[((int) l3) - 58910] & 0xff) + ((b[((int) l3) - 58911] & 0xff) << 6)) + (l22 << 12)) + -925824;
                          l10 = l2 + -3L;
                          l7 = l3 + 3L;
                          l4 = l2;
                          break L67;
                         }
                         l21 = l22 & 255;
                         l7 = 1L;
                         L84: {
                          if (((int) (byte) l22) > -1) { break L84; }
                          l24 = (b[((int) l3) - 58911] & 0xff) & 63;
                          L85: {
                           if ((l22 & 255) + Integer.MIN_VALUE > -2147483425) { break L85; }
                           l4 = l2;
                           break L69;
                          }
                          l25 = (b[((int) l3) - 58910] & 0xff) & 63;
                          L86: {
                           if ((l22 & 255) + Integer.MIN_VALUE > -2147483409) { break L86; }
                           l21 = ((l24 << 6) | ((l21 << 12) & 61440)) | l25;
                           l7 = 3L;
                           break L84;
                          }
                          l21 = ((l25 << 6) | ((l24 << 12) | ((l21 << 18) & 1835008))) | ((b[((int) l3) - 58909] & 0xff) & 63);
                          l7 = 4L;
                         }
                         l4 = l2;
                         break L68;
                        }
                        l21 = ((l21 << 6) & 1984) | l24;
                        l7 = 2L;
                       }
                       l10 = l4 - l7;
                       l7 = l3 + l7;
                      }
                      L87: {
                       if (l21 != 27491) { break L87; }
                       l22 = 0;
                       break L63;
                      }
                      if (l21 == 36000) { break L64; }
                      if (l21 == 36127) { break L64; }
                      l6 = l6 + -1L;
                     }
                     Core2.f38(m, l5 + 96L, l23, l6, l3, l4);
                     l21 = 2;
                     l22 = 0;
                     break L62;
                    }
                    l22 = 1;
                   }
                   Core2.f38(m, l5 + 96L, l23, l6, l7, l10);
                   l21 = l22 != 0 ? 3 : 2;
                  }
                  l11 = Words.get64(b, ((int) l5) - 58792);
                  l12 = Words.get64(b, ((int) l5) - 58800);
                  L88: {
                   if ((b[((int) l5) - 58816] & 0xff) != 0) { break L88; }
                   final int t89 = (l12 + Long.MIN_VALUE > Words.get64(b, ((int) (l4 = l9 + (l22 != 0 ? 67904L : 67888L))) - 58912) + Long.MIN_VALUE) ? 1 : 0;
                   final int t90 = (l11 + Long.MIN_VALUE > (l4 = Words.get64(b, ((int) l4) - 58904)) + Long.MIN_VALUE) ? 1 : 0;
                   final int t91 = (l11 == l4) ? 1 : 0;
                   if ((t91 != 0 ? t89 : t90) != 0) { break L38; }
                   l13 = l22 & 0xffffffffL;
                   break L36;
                  }
                  final int t92 = l21;
                  final int t93 = l23 = b[((int) l5) - 58808] & 0xff;
                  final int t94 = l23 = (l23 == 2) ? 1 : 0;
                  l21 = t94 != 0 ? t92 : t93;
                  l11 = 0L;
                  l13 = l23 != 0 ? 0L : l12;
                  break L34;
                 }
                 if (l2 + Long.MIN_VALUE >= -9223372036854775805L) { break L47; }
                 l23 = b[((int) l3) - 58912] & 0xff;
                 break L46;
                }
                if (((l23 = b[((int) l3) - 58912] & 0xff) & 240) != 224) { break L46; }
                l21 = (((b[((int) l3) - 58910] & 0xff) + ((b[((int) l3) - 58911] & 0xff) << 6)) + (l23 << 12)) + -925824;
                l10 = l2 + -3L;
                l7 = l3 + 3L;
                l4 = l2;
                break L43;
               }
               l21 = l23 & 255;
               l7 = 1L;
               L95: {
                if (((int) (byte) l23) > -1) { break L95; }
                l22 = (b[((int) l3) - 58911] & 0xff) & 63;
                L96: {
                 if ((l23 & 255) + Integer.MIN_VALUE > -2147483425) { break L96; }
                 l4 = l2;
                 break L45;
                }
                l24 = (b[((int) l3) - 58910] & 0xff) & 63;
                L97: {
                 if ((l23 & 255) + Integer.MIN_VALUE > -2147483409) { break L97; }
                 l21 = ((l22 << 6) | ((l21 << 12) & 61440)) | l24;
                 l7 = 3L;
                 break L95;
                }
                l21 = ((l24 << 6) | ((l22 << 12) | ((l21 << 18) & 1835008))) | ((b[((int) l3) - 58909] & 0xff) & 63);
                l7 = 4L;
               }
               l4 = l2;
               break L44;
              }
              l21 = ((l21 << 6) & 1984) | l22;
              l7 = 2L;
             }
             l10 = l4 - l7;
             l7 = l3 + l7;
            }
            L98: {
             if (l21 != 27491) { break L98; }
             l23 = 0;
             break L40;
            }
            if (l21 == 36000) { break L41; }
            if (l21 == 36127) { break L41; }
            l6 = l6 + -1L;
           }
           Core2.f39(m, l5 + 96L, l6, l3, l4);
           l21 = 2;
           l23 = 0;
           break L39;
          }
          l23 = 1;
         }
         Core2.f39(m, l5 + 96L, l6, l7, l10);
         l21 = l23 != 0 ? 3 : 2;
        }
        l11 = Words.get64(b, ((int) l5) - 58792);
        l12 = Words.get64(b, ((int) l5) - 58800);
        if ((b[((int) l5) - 58816] & 0xff) != 0) { break L35; }
        final int t99 = (l12 + Long.MIN_VALUE > Words.get64(b, ((int) (l4 = l9 + (l23 != 0 ? 67904L : 67888L))) - 58912) + Long.MIN_VALUE) ? 1 : 0;
        final int t100 = (l11 + Long.MIN_VALUE > (l4 = Words.get64(b, ((int) l4) - 58904)) + Long.MIN_VALUE) ? 1 : 0;
        final int t101 = (l11 == l4) ? 1 : 0;
        if ((t101 != 0 ? t99 : t100) == 0) { break L37; }
       }
       l12 = 0L;
       l23 = 1;
       l11 = 0L;
       l13 = 0L;
       break L33;
      }
      l13 = l23 & 0xffffffffL;
     }
     l23 = 0;
     l21 = 0;
     break L33;
    }
    final int t102 = l21;
    final int t103 = l23 = b[((int) l5) - 58808] & 0xff;
    final int t104 = l23 = (l23 == 2) ? 1 : 0;
    l21 = t104 != 0 ? t102 : t103;
    l11 = 0L;
    l13 = l23 != 0 ? 0L : l12;
   }
   l23 = 1;
   l12 = 0L;
  }
 }
 m.kept[0] = l2;
 m.kept[1] = l3;
 m.kept[2] = l4;
 m.kept[3] = l6;
 m.kept[4] = l7;
 m.kept[5] = l10;
 m.kept[6] = l11;
 m.kept[7] = l12;
 m.kept[8] = l13;
 m.kept[9] = l21;
 m.kept[10] = l22;
 m.kept[11] = l23;
 m.kept[12] = l24;
 m.kept[13] = l25;
 return exit;
}

static void f36(State m, long l0, long l1, long l2, long l3) {
 final byte[] b = m.bytes;
 long l4 = 0;
 long l5 = 0;
 long l6 = 0;
 long l7 = 0;
 long l8 = 0;
 long l9 = 0;
 long l10 = 0;
 long l11 = 0;
 long l12 = 0;
 long l13 = 0;
 long l14 = 0;
 long l15 = 0;
 long l16 = 0;
 long l17 = 0;
 long l18 = 0;
 long l19 = 0;
 long l20 = 0;
 int l21 = 0;
 int l22 = 0;
 int l23 = 0;
 int l24 = 0;
 int l25 = 0;
 m.g0 = l4 = m.g0 - 128L;
 L1: {
  L2: {
   L3: {
    L4: {
     L5: {
      L6: {
       if ((l5 = l4) < 16L) { break L6; }
       b[((int) l5) - 58814] = (byte) 0;
       Words.put16(b, ((int) l5) - 58816, (short) 0);
       if (l3 == 0L) { break L3; }
       l6 = l3 + -2L;
       l4 = 0L;
       L7: {
        L8: while (true) {
         if ((b[((int) (l7 = l2 + l4)) - 58912] & 0xff) == 32) { break L7; }
         l6 = l6 + -1L;
         if (l3 != (l4 = l4 + 1L)) { continue L8; }
         break L3;
        }
       }
       if ((l3 + -1L) == l4) { break L3; }
       l8 = l3 - l4;
       l9 = l7 + 1L;
       l10 = (l4 ^ -1L) + l3;
       l3 = 0L;
       L9: {
        L10: while (true) {
         if ((b[((int) ((l7 + l3) + 1L)) - 58912] & 0xff) == 32) { break L9; }
         if (l10 != (l3 = l3 + 1L)) { continue L10; }
         break L3;
        }
       }
       f37(m, l5 + 96L, l9, l3);
       if ((l21 = ((b[((int) l5) - 58816] & 0xff) != 1) ? 1 : 0) != 0) { break L3; }
       if (l4 == 0L) { break L3; }
       l22 = b[((int) l5) - 58814] & 0xff;
       l23 = b[((int) l5) - 58815] & 0xff;
       L11: {
        L12: {
         switch ((b[((int) l2) - 58912] & 0xff) + -105) {
         case 0: break L11;
         case 12: break L12;
         default: break L3;
         }
        }
        L13: {
         if ((l10 = l4 + -1L) + Long.MIN_VALUE > -9223372036854775807L) { break L13; }
         L14: {
          switch ((int) l10) {
          case 1: break L14;
          default: break L3;
          }
         }
         if ((b[((int) (l2 + 1L)) - 58912] & 0xff) != 56) { break L3; }
         l9 = 0L;
         l24 = 0;
         break L4;
        }
        L15: {
         if (l4 + Long.MIN_VALUE > -9223372036854775805L) { break L15; }
         L16: {
          L17: {
           L18: {
            switch ((b[((int) (l2 + 1L)) - 58912] & 0xff) + -49) {
            case 0: break L18;
            case 2: break L17;
            case 5: break L16;
            default: break L3;
            }
           }
           if ((b[((int) (l2 + 2L)) - 58912] & 0xff) != 54) { break L3; }
           l9 = 32L;
           l24 = 0;
           break L4;
          }
          if ((b[((int) (l2 + 2L)) - 58912] & 0xff) != 50) { break L3; }
          l9 = 64L;
          l24 = 0;
          break L4;
         }
         if ((b[((int) (l2 + 2L)) - 58912] & 0xff) != 52) { break L3; }
         break L5;
        }
        L19: {
         if (l4 != 4L) { break L19; }
         if ((b[((int) (l2 + 1L)) - 58912] & 0xff) != 49) { break L3; }
         if ((b[((int) (l2 + 2L)) - 58912] & 0xff) != 50) { break L3; }
         if ((b[((int) (l2 + 3L)) - 58912] & 0xff) != 56) { break L3; }
         l9 = 128L;
         l24 = 0;
         break L4;
        }
        if (l4 + Long.MIN_VALUE > -9223372036854775803L) { break L3; }
        if ((b[((int) (l2 + 1L)) - 58912] & 0xff) != 115) { break L3; }
        if ((b[((int) (l2 + 2L)) - 58912] & 0xff) != 105) { break L3; }
        if ((b[((int) (l2 + 3L)) - 58912] & 0xff) != 122) { break L3; }
        if ((b[((int) (l2 + 4L)) - 58912] & 0xff) == 101) { break L5; }
        break L3;
       }
       L20: {
        L21: {
         if ((l10 = l4 + -1L) + Long.MIN_VALUE > -9223372036854775807L) { break L21; }
         L22: {
          switch ((int) l10) {
          case 1: break L22;
          default: break L3;
          }
         }
         if ((b[((int) (l2 + 1L)) - 58912] & 0xff) != 56) { break L3; }
         l9 = 160L;
         break L20;
        }
        L23: {
         L24: {
          if (l4 + Long.MIN_VALUE > -9223372036854775805L) { break L24; }
          L25: {
           L26: {
            L27: {
             switch ((b[((int) (l2 + 1L)) - 58912] & 0xff) + -49) {
             case 0: break L27;
             case 2: break L26;
             case 5: break L25;
             default: break L3;
             }
            }
            if ((b[((int) (l2 + 2L)) - 58912] & 0xff) != 54) { break L3; }
            l9 = 192L;
            break L20;
           }
           if ((b[((int) (l2 + 2L)) - 58912] & 0xff) != 50) { break L3; }
           l9 = 224L;
           break L20;
          }
          if ((b[((int) (l2 + 2L)) - 58912] & 0xff) == 52) { break L23; }
          break L3;
         }
         L28: {
          if (l4 != 4L) { break L28; }
          if ((b[((int) (l2 + 1L)) - 58912] & 0xff) != 49) { break L3; }
          if ((b[((int) (l2 + 2L)) - 58912] & 0xff) != 50) { break L3; }
          if ((b[((int) (l2 + 3L)) - 58912] & 0xff) != 56) { break L3; }
          l9 = 288L;
          break L20;
         }
         if (l4 + Long.MIN_VALUE > -9223372036854775803L) { break L3; }
         if ((b[((int) (l2 + 1L)) - 58912] & 0xff) != 115) { break L3; }
         if ((b[((int) (l2 + 2L)) - 58912] & 0xff) != 105) { break L3; }
         if ((b[((int) (l2 + 3L)) - 58912] & 0xff) != 122) { break L3; }
         if ((b[((int) (l2 + 4L)) - 58912] & 0xff) != 101) { break L3; }
        }
        l9 = 256L;
       }
       l24 = 1;
       break L4;
      }
      throw State.trap();
     }
     l9 = 96L;
     l24 = 0;
    }
    l6 = l2 = l6 - l3;
    l4 = l3 = (l10 = l3 + 2L) + l7;
    L29: {
     L30: {
      if (l2 + Long.MIN_VALUE < -9223372036854775804L) { break L30; }
      l4 = l3;
      l6 = l2;
      L31: while (true) {
       if (((Words.get32(b, ((int) l4) - 58912) + 16776990) & 12632312) != 8421376) { break L29; }
       l4 = l4 + 3L;
       if ((l6 = l6 + -3L) + Long.MIN_VALUE > -9223372036854775805L) { continue L31; }
       break L31;
      }
     }
     if (l6 + Long.MIN_VALUE > -9223372036854775805L) { break L29; }
     L32: {
      switch ((int) l6) {
      case 1: case 2: break L29;
      case 3: break L32;
      default: break L2;
      }
     }
     if (((((Words.get16(b, ((int) l4) - 58912) & 0xffff) | ((b[((int) (l4 + 2L)) - 58912] & 0xff) << 16)) + 16776990) & 12632312) == 8421376) { break L2; }
    }
    if (f6(m, l3, l2) != 0) { break L2; }
   }
   l6 = 8L;
   l4 = 66814L;
   break L1;
  }
  f36_1(m, l2, l3, l4, l5, l6, l7, l8, l9, l10, l11, l12, l13, l21, l22, l23, l24, l25);
  l2 = m.kept[0];
  l3 = m.kept[1];
  l4 = m.kept[2];
  l6 = m.kept[3];
  l7 = m.kept[4];
  l10 = m.kept[5];
  l11 = m.kept[6];
  l12 = m.kept[7];
  l13 = m.kept[8];
  l21 = (int) m.kept[9];
  l22 = (int) m.kept[10];
  l23 = (int) m.kept[11];
  l24 = (int) m.kept[12];
  l25 = (int) m.kept[13];
  L106: {
   L107: {
    if (l23 != 0) { break L107; }
    L108: {
     final int t109 = (l12 + Long.MIN_VALUE < -9223372036854775798L) ? 1 : 0;
     final int t110 = (l11 == 0L) ? 1 : 0;
     if ((t110 != 0 ? t109 : 0) != 0) { break L108; }
     l6 = 256L;
     l4 = l12;
     l3 = l11;
     L111: while (true) {
      l14 = l6;
      final long t112 = l15 = l3;
      final int t113 = ((l15 | (l16 = l4)) == 0L) ? 1 : 0;
      final long t114 = (long) Long.numberOfLeadingZeros(l15);
      final long t115 = ((long) Long.numberOfLeadingZeros(l16)) + 64L;
      final int t116 = l23 = (l15 != 0L) ? 1 : 0;
      final int t117 = ((l6 = 124L - (l4 = t116 != 0 ? t114 : t115)) + Long.MIN_VALUE > -9223372036854775681L) ? 1 : 0;
      final int t118 = ((l7 = 0L - ((l4 + Long.MIN_VALUE > -9223372036854775684L) ? 1L : 0L)) != 0L) ? 1 : 0;
      final int t119 = (l7 == 0L) ? 1 : 0;
      l3 = ((l21 = t113 | (t119 != 0 ? t117 : t118)) != 0) ? 0L : t112;
      l4 = l21 != 0 ? 0L : l16;
      L120: {
       if (l21 != 0) { break L120; }
       if (((l6 ^ 127L) | l7) == 0L) { break L120; }
       f4(m, l5 + 32L, l16, l15, 127 - ((int) l6));
       l3 = Words.get64(b, ((int) l5) - 58872);
       l4 = Words.get64(b, ((int) l5) - 58880);
       L121: {
        L122: {
         if (((l6 = l6 + 1L) | (l9 = l7 + ((l6 == 0L) ? 1L : 0L))) == 0L) { break L122; }
         f5(m, l5 + 16L, l16, l15, (int) l6);
         l17 = 10L + -1L;
         l18 = 0L - ((10L == 0L) ? 1L : 0L);
         l2 = Words.get64(b, ((int) l5) - 58888);
         l7 = Words.get64(b, ((int) l5) - 58896);
         l10 = 0L;
         L123: while (true) {
          l8 = l10;
          l10 = (l7 = ((l18 - (l19 = (l2 << 1L) | (l7 >>> 63L))) - ((l17 + Long.MIN_VALUE < (l2 = (l7 << 1L) | (l3 >>> 63L)) + Long.MIN_VALUE) ? 1L : 0L)) >> 63L) & 1L;
          l7 = l2 - (l20 = l7 & 10L);
          l2 = l19 - ((l2 + Long.MIN_VALUE < l20 + Long.MIN_VALUE) ? 1L : 0L);
          l3 = 0L | ((l3 << 1L) | (l4 >>> 63L));
          l21 = (l6 == 0L) ? 1 : 0;
          l4 = l8 | (l4 << 1L);
          l6 = l8 = l6 + -1L;
          if (!((l8 | (l9 = l9 - (l21 & 0xffffffffL))) == 0L)) { continue L123; }
          break L121;
         }
        }
        l10 = 0L;
       }
       l3 = (l3 << 1L) | (l4 >>> 63L);
       l4 = l10 | (l4 << 1L);
      }
      f3(m, l5, l4, l4, 10L, 0L);
      b[((int) (l1 + (l6 = l14 + -1L))) - 58912] = (byte) (((int) (l16 - Words.get64(b, ((int) l5) - 58912))) | 48);
      final int t124 = (l16 + Long.MIN_VALUE > -9223372036854775709L) ? 1 : 0;
      final int t125 = l23;
      final int t126 = (l15 == 0L) ? 1 : 0;
      if ((t126 != 0 ? t124 : t125) != 0) { continue L111; }
      break L111;
     }
     l6 = l14 + -2L;
     l21 = (int) l4;
     break L106;
    }
    l21 = (int) l12;
    l6 = 255L;
    break L106;
   }
   l6 = 36L;
   l4 = 69095L;
   L127: {
    L128: {
     L129: {
      L130: {
       switch (l21) {
       case 1: break L130;
       case 2: break L128;
       case 3: break L129;
       default: break L1;
       }
      }
      l4 = 255L;
      b[((int) (l1 + 255L)) - 58912] = (byte) 41;
      L131: {
       if (l13 + Long.MIN_VALUE < -9223372036854775798L) { break L131; }
       l3 = 0L;
       L132: while (true) {
        l14 = l4;
        final long t133 = l15 = l3;
        final int t134 = ((l15 | (l16 = l13)) == 0L) ? 1 : 0;
        final long t135 = (long) Long.numberOfLeadingZeros(l15);
        final long t136 = ((long) Long.numberOfLeadingZeros(l16)) + 64L;
        final int t137 = (l15 != 0L) ? 1 : 0;
        final int t138 = ((l6 = 124L - (l4 = t137 != 0 ? t135 : t136)) + Long.MIN_VALUE > -9223372036854775681L) ? 1 : 0;
        final int t139 = ((l7 = 0L - ((l4 + Long.MIN_VALUE > -9223372036854775684L) ? 1L : 0L)) != 0L) ? 1 : 0;
        final int t140 = (l7 == 0L) ? 1 : 0;
        l3 = ((l21 = t134 | (t140 != 0 ? t138 : t139)) != 0) ? 0L : t133;
        l13 = l21 != 0 ? 0L : l16;
        L141: {
         if (l21 != 0) { break L141; }
         if (((l6 ^ 127L) | l7) == 0L) { break L141; }
         f4(m, l5 + 80L, l16, l15, 127 - ((int) l6));
         l3 = Words.get64(b, ((int) l5) - 58824);
         l4 = Words.get64(b, ((int) l5) - 58832);
         L142: {
          L143: {
           if (((l6 = l6 + 1L) | (l9 = l7 + ((l6 == 0L) ? 1L : 0L))) == 0L) { break L143; }
           f5(m, l5 + 64L, l16, l15, (int) l6);
           l17 = 10L + -1L;
           l18 = 0L - ((10L == 0L) ? 1L : 0L);
           l2 = Words.get64(b, ((int) l5) - 58840);
           l7 = Words.get64(b, ((int) l5) - 58848);
           l10 = 0L;
           L144: while (true) {
            l8 = l10;
            l10 = (l7 = ((l18 - (l19 = (l2 << 1L) | (l7 >>> 63L))) - ((l17 + Long.MIN_VALUE < (l2 = (l7 << 1L) | (l3 >>> 63L)) + Long.MIN_VALUE) ? 1L : 0L)) >> 63L) & 1L;
            l7 = l2 - (l20 = l7 & 10L);
            l2 = l19 - ((l2 + Long.MIN_VALUE < l20 + Long.MIN_VALUE) ? 1L : 0L);
            l3 = 0L | ((l3 << 1L) | (l4 >>> 63L));
            l21 = (l6 == 0L) ? 1 : 0;
            l4 = l8 | (l4 << 1L);
            l6 = l8 = l6 + -1L;
            if (!((l8 | (l9 = l9 - (l21 & 0xffffffffL))) == 0L)) { continue L144; }
            break L142;
           }
          }
          l10 = 0L;
         }
         l3 = (l3 << 1L) | (l4 >>> 63L);
         l13 = l10 | (l4 << 1L);
        }
        f3(m, l5 + 48L, l13, l4, 10L, 0L);
        b[((int) (l1 + (l4 = l14 + -1L))) - 58912] = (byte) (((int) (l16 - Words.get64(b, ((int) l5) - 58864))) | 48);
        final int t145 = (l16 + Long.MIN_VALUE > -9223372036854775709L) ? 1 : 0;
        final int t146 = (l15 != 0L) ? 1 : 0;
        final int t147 = (l15 == 0L) ? 1 : 0;
        if ((t147 != 0 ? t145 : t146) != 0) { continue L132; }
        break L132;
       }
       l3 = l14 + -2L;
       l21 = (int) l13;
       break L127;
      }
      l21 = (int) l13;
      l3 = 254L;
      break L127;
     }
     l6 = 23L;
     l4 = 69154L;
     break L1;
    }
    l6 = 23L;
    l4 = 69131L;
    break L1;
   }
   b[((int) (l6 = l1 + l3)) - 58912] = (byte) (l21 | 48);
   L148: {
    L149: {
     if (((l4 = l6 + -47L) - 69177L) + Long.MIN_VALUE > -9223372036854775762L) { break L149; }
     b[((int) l4) - 58912] = (byte) 101;
     Words.put16(b, ((int) (l6 + -2L)) - 58912, (short) 8250);
     Words.put32(b, ((int) (l6 + -6L)) - 58912, 1852795252);
     Words.put64(b, ((int) (l6 + -14L)) - 58912, 7598539523804394595L);
     Words.put64(b, ((int) (l6 + -22L)) - 58912, 7310030967910852896L);
     Words.put64(b, ((int) (l6 + -30L)) - 58912, 8316213862615641461L);
     Words.put64(b, ((int) (l6 + -38L)) - 58912, 7935454089724193128L);
     Words.put64(b, ((int) (l6 + -46L)) - 58912, 7142820508308894322L);
     break L148;
    }
    Words.put64(b, ((int) l4) - 58873, Words.get64(b, State.far((int) 0L, 69216)));
    Words.put64(b, ((int) l4) - 58880, Words.get64(b, State.far((int) 0L, 69209)));
    Words.put64(b, ((int) l4) - 58888, Words.get64(b, State.far((int) 0L, 69201)));
    Words.put64(b, ((int) l4) - 58896, Words.get64(b, State.far((int) 0L, 69193)));
    Words.put64(b, ((int) l4) - 58904, Words.get64(b, State.far((int) 0L, 69185)));
    Words.put64(b, ((int) l4) - 58912, Words.get64(b, State.far((int) 0L, 69177)));
   }
   l6 = 303L - l3;
   break L1;
  }
  b[((int) (l1 + l6)) - 58912] = (byte) (l21 | 48);
  L150: {
   L151: {
    if ((l12 | l11) == 0L) { break L151; }
    if ((((int) l13) & 1) == 0) { break L151; }
    L152: {
     if (((l6 = l1 + (l4 = l6 + -4L)) - 69088L) + Long.MIN_VALUE > -9223372036854775805L) { break L152; }
     Words.put32(b, ((int) l6) - 58912, 757099375);
     break L150;
    }
    Words.put32(b, ((int) l6) - 58912, 757099375);
    break L150;
   }
   L153: {
    if (((l6 = l1 + (l4 = l6 + -3L)) - 69092L) + Long.MIN_VALUE > -9223372036854775806L) { break L153; }
    b[((int) l6) - 58910] = (byte) 32;
    Words.put16(b, ((int) l6) - 58912, (short) 27503);
    break L150;
   }
   b[((int) l6) - 58910] = (byte) (b[State.far((int) 0L, 69094)] & 0xff);
   Words.put16(b, ((int) l6) - 58912, (short) (Words.get16(b, State.far((int) 0L, 69092)) & 0xffff));
  }
  l6 = 256L - l4;
  l4 = l1 + l4;
 }
 Words.put64(b, ((int) l0) - 58904, l6);
 Words.put64(b, ((int) l0) - 58912, l4);
 m.g0 = l5 + 128L;
}

static void f37(State m, long l0, long l1, long l2) {
 final byte[] b = m.bytes;
 long l3 = 0;
 long l4 = 0;
 int l5 = 0;
 int l6 = 0;
 int l7 = 0;
 L1: {
  if ((l3 = m.g0) < 16L) { break L1; }
  L2: {
   L3: {
    if ((l4 = l2 + -3L) + Long.MIN_VALUE > -9223372036854775799L) { break L3; }
    L4: {
     L5: {
      L6: {
       L7: {
        L8: {
         switch ((int) l4) {
         case 1: break L4;
         case 2: break L8;
         case 3: break L5;
         case 4: case 5: case 6: case 7: case 8: break L3;
         case 9: break L6;
         default: break L7;
         }
        }
        if ((b[((int) l1) - 58912] & 0xff) != 110) { break L3; }
        if (((b[((int) (l1 + 1L)) - 58912] & 0xff) & 255) != 97) { break L3; }
        if (((b[((int) (l1 + 2L)) - 58912] & 0xff) & 255) != 105) { break L3; }
        if (((b[((int) (l1 + 3L)) - 58912] & 0xff) & 255) != 118) { break L3; }
        if (Core2.f40(m, l1, 5L, 66822L) == 0) { break L3; }
        l5 = 1;
        l6 = 0;
        l7 = 0;
        break L2;
       }
       if ((b[((int) l1) - 58912] & 0xff) != 108) { break L3; }
       if ((b[((int) (l1 + 1L)) - 58912] & 0xff) != 111) { break L3; }
       if ((b[((int) (l1 + 2L)) - 58912] & 0xff) != 119) { break L3; }
       l7 = 1;
       l6 = 0;
       l5 = 1;
       break L2;
      }
      if ((b[((int) l1) - 58912] & 0xff) != 116) { break L3; }
      if (((b[((int) (l1 + 1L)) - 58912] & 0xff) & 255) != 101) { break L3; }
      if (((b[((int) (l1 + 2L)) - 58912] & 0xff) & 255) != 110) { break L3; }
      if (((b[((int) (l1 + 3L)) - 58912] & 0xff) & 255) != 95) { break L3; }
      if (Core2.f40(m, l1, l2, 66827L) == 0) { break L3; }
      l6 = 1;
      l7 = 1;
      l5 = 1;
      break L2;
     }
     if ((b[((int) l1) - 58912] & 0xff) != 109) { break L3; }
     if (((b[((int) (l1 + 1L)) - 58912] & 0xff) & 255) != 105) { break L3; }
     if (((b[((int) (l1 + 2L)) - 58912] & 0xff) & 255) != 100) { break L3; }
     if (((b[((int) (l1 + 3L)) - 58912] & 0xff) & 255) != 100) { break L3; }
     if (Core2.f40(m, l1, l2, 66839L) == 0) { break L3; }
     l7 = 1;
     l6 = 2;
     l5 = 1;
     break L2;
    }
    if ((b[((int) l1) - 58912] & 0xff) != 104) { break L3; }
    if (((b[((int) (l1 + 1L)) - 58912] & 0xff) & 255) != 105) { break L3; }
    if (((b[((int) (l1 + 2L)) - 58912] & 0xff) & 255) != 103) { break L3; }
    if (((b[((int) (l1 + 3L)) - 58912] & 0xff) & 255) != 104) { break L3; }
    if (Core2.f40(m, l1, l2, 66845L) == 0) { break L3; }
    l7 = 1;
    l6 = 3;
    l5 = 1;
    break L2;
   }
   l6 = 0;
   l7 = 0;
   l5 = 0;
  }
  b[((int) l0) - 58912] = (byte) l5;
  b[((int) (l0 + 2L)) - 58912] = (byte) l6;
  b[((int) (l0 + 1L)) - 58912] = (byte) l7;
  m.g0 = l3;
  return;
 }
 throw State.trap();
}
}
