// The proved module for WebAssembly as Java; made by bindings/java/core.py.
package chinesenumber;

final class Core {
static int chinese_number_version(State m) {
 L1: {
  if (Core1.f0(m) == 0) { break L1; }
  Core1.f2(m);
  throw State.trap();
 }
 Core9.f306(m);
 Core1.f1(m);
 return 1000;
}

static int chinese_input_expected(State m, long l0, long l1, int l2, long l3) {
 L1: {
  if (Core1.f0(m) == 0) { break L1; }
  Core1.f2(m);
  throw State.trap();
 }
 l2 = Core9.f308(m, l0, l1, l2, l3);
 Core1.f1(m);
 return l2;
}

static int chinese_input_repair(State m, long l0, long l1, int l2, long l3) {
 L1: {
  if (Core1.f0(m) == 0) { break L1; }
  Core1.f2(m);
  throw State.trap();
 }
 l2 = Core9.f310(m, l0, l1, l2, l3);
 Core1.f1(m);
 return l2;
}

static int chinese_number_answer_line(State m, long l0, long l1, long l2, long l3, long l4) {
 int l5 = 0;
 L1: {
  if (Core1.f0(m) == 0) { break L1; }
  Core1.f2(m);
  throw State.trap();
 }
 l5 = Core9.f312(m, l0, l1, l2, l3, l4);
 Core1.f1(m);
 return l5;
}

static int chinese_input_message(State m, long l0, long l1, int l2, int l3, long l4, long l5, long l6) {
 L1: {
  if (Core1.f0(m) == 0) { break L1; }
  Core1.f2(m);
  throw State.trap();
 }
 l3 = Core9.f314(m, l0, l1, l2, l3, l4, l5, l6);
 Core1.f1(m);
 return l3;
}

static int chinese_amounts_read_column(State m, long l0, long l1, long l2, long l3, long l4, long l5, long l6, int l7, long l8, long l9, long l10, long l11) {
 L1: {
  if (Core1.f0(m) == 0) { break L1; }
  Core1.f2(m);
  throw State.trap();
 }
 l7 = Core9.f316(m, l0, l1, l2, l3, l4, l5, l6, l7, l8, l9, l10, l11);
 Core1.f1(m);
 return l7;
}

static int chinese_dates_read_column(State m, long l0, long l1, long l2, long l3, long l4, long l5, long l6, long l7, long l8, long l9, long l10) {
 L1: {
  if (Core1.f0(m) == 0) { break L1; }
  Core1.f2(m);
  throw State.trap();
 }
 Core9.f318(m, l0, l1, l2, l3, l4, l5, l6, l7, l8, l9, l10);
 Core1.f1(m);
 return 0;
}

static int chinese_date_print(State m, int l0, int l1, int l2, int l3, long l4, long l5, long l6) {
 L1: {
  if (Core1.f0(m) == 0) { break L1; }
  Core1.f2(m);
  throw State.trap();
 }
 l3 = Core9.f320(m, l0, l1, l2, l3, l4, l5, l6);
 Core1.f1(m);
 return l3;
}

static int chinese_signed_amount_print(State m, long l0, int l1, int l2, long l3, long l4, long l5) {
 L1: {
  if (Core1.f0(m) == 0) { break L1; }
  Core1.f2(m);
  throw State.trap();
 }
 l2 = Core9.f322(m, l0, l1, l2, l3, l4, l5);
 Core1.f1(m);
 return l2;
}

static int chinese_status_message(State m, int l0, int l1, long l2, long l3, long l4) {
 L1: {
  if (Core1.f0(m) == 0) { break L1; }
  Core1.f2(m);
  throw State.trap();
 }
 l1 = Core9.f324(m, l0, l1, l2, l3, l4);
 Core1.f1(m);
 return l1;
}

static int chinese_quantity_figures(State m, long l0, long l1, long l2, long l3) {
 int l4 = 0;
 L1: {
  if (Core1.f0(m) == 0) { break L1; }
  Core1.f2(m);
  throw State.trap();
 }
 l4 = Core9.f326(m, l0, l1, l2, l3);
 Core1.f1(m);
 return l4;
}

static int chinese_amount_read(State m, long l0, long l1, long l2) {
 int l3 = 0;
 L1: {
  if (Core1.f0(m) == 0) { break L1; }
  Core1.f2(m);
  throw State.trap();
 }
 l3 = Core9.f328(m, l0, l1, l2);
 Core1.f1(m);
 return l3;
}

static int chinese_typed_amount_read(State m, long l0, long l1, long l2) {
 int l3 = 0;
 L1: {
  if (Core1.f0(m) == 0) { break L1; }
  Core1.f2(m);
  throw State.trap();
 }
 l3 = Core9.f330(m, l0, l1, l2);
 Core1.f1(m);
 return l3;
}

static int chinese_date_read(State m, long l0, long l1, long l2) {
 int l3 = 0;
 L1: {
  if (Core1.f0(m) == 0) { break L1; }
  Core1.f2(m);
  throw State.trap();
 }
 l3 = Core9.f332(m, l0, l1, l2);
 Core1.f1(m);
 return l3;
}

static int chinese_amount_print(State m, long l0, int l1, int l2, long l3, long l4, long l5) {
 L1: {
  if (Core1.f0(m) == 0) { break L1; }
  Core1.f2(m);
  throw State.trap();
 }
 l2 = Core9.f334(m, l0, l1, l2, l3, l4, l5);
 Core1.f1(m);
 return l2;
}

static int chinese_amounts_print_column(State m, long l0, long l1, long l2, long l3, long l4, int l5, int l6, long l7, long l8, long l9, long l10, long l11, long l12, long l13) {
 L1: {
  if (Core1.f0(m) == 0) { break L1; }
  Core1.f2(m);
  throw State.trap();
 }
 l6 = Core9.f336(m, l0, l1, l2, l3, l4, l5, l6, l7, l8, l9, l10, l11, l12, l13);
 Core1.f1(m);
 return l6;
}

static int chinese_dates_print_column(State m, long l0, long l1, long l2, long l3, long l4, int l5, long l6, long l7, long l8, long l9, long l10, long l11, long l12) {
 L1: {
  if (Core1.f0(m) == 0) { break L1; }
  Core1.f2(m);
  throw State.trap();
 }
 l5 = Core9.f338(m, l0, l1, l2, l3, l4, l5, l6, l7, l8, l9, l10, l11, l12);
 Core1.f1(m);
 return l5;
}

static int chinese_figures_read(State m, long l0, long l1, long l2) {
 int l3 = 0;
 L1: {
  if (Core1.f0(m) == 0) { break L1; }
  Core1.f2(m);
  throw State.trap();
 }
 l3 = Core9.f340(m, l0, l1, l2);
 Core1.f1(m);
 return l3;
}

static int chinese_signed_amount_read(State m, long l0, long l1, long l2) {
 int l3 = 0;
 L1: {
  if (Core1.f0(m) == 0) { break L1; }
  Core1.f2(m);
  throw State.trap();
 }
 l3 = Core9.f342(m, l0, l1, l2);
 Core1.f1(m);
 return l3;
}

static int chinese_typed_signed_amount_read(State m, long l0, long l1, long l2) {
 int l3 = 0;
 L1: {
  if (Core1.f0(m) == 0) { break L1; }
  Core1.f2(m);
  throw State.trap();
 }
 l3 = Core9.f344(m, l0, l1, l2);
 Core1.f1(m);
 return l3;
}

static int chinese_range_read(State m, long l0, long l1, long l2, long l3, long l4, long l5) {
 int l6 = 0;
 L1: {
  if (Core1.f0(m) == 0) { break L1; }
  Core1.f2(m);
  throw State.trap();
 }
 l6 = Core9.f346(m, l0, l1, l2, l3, l4, l5);
 Core1.f1(m);
 return l6;
}

static int chinese_number_find(State m, long l0, long l1, long l2, int l3, int l4, long l5, long l6, long l7) {
 L1: {
  if (Core1.f0(m) == 0) { break L1; }
  Core1.f2(m);
  throw State.trap();
 }
 l4 = Core9.f348(m, l0, l1, l2, l3, l4, l5, l6, l7);
 Core1.f1(m);
 return l4;
}

static int chinese_number_find_utf8(State m, long l0, long l1, long l2, int l3, int l4, long l5, long l6, long l7) {
 L1: {
  if (Core1.f0(m) == 0) { break L1; }
  Core1.f2(m);
  throw State.trap();
 }
 l4 = Core9.f350(m, l0, l1, l2, l3, l4, l5, l6, l7);
 Core1.f1(m);
 return l4;
}

static int chinese_phrase_find(State m, long l0, long l1, long l2, int l3, int l4, long l5, long l6, long l7) {
 L1: {
  if (Core1.f0(m) == 0) { break L1; }
  Core1.f2(m);
  throw State.trap();
 }
 l4 = Core9.f352(m, l0, l1, l2, l3, l4, l5, l6, l7);
 Core1.f1(m);
 return l4;
}

static int chinese_phrase_find_utf8(State m, long l0, long l1, long l2, int l3, int l4, long l5, long l6, long l7) {
 L1: {
  if (Core1.f0(m) == 0) { break L1; }
  Core1.f2(m);
  throw State.trap();
 }
 l4 = Core9.f354(m, l0, l1, l2, l3, l4, l5, l6, l7);
 Core1.f1(m);
 return l4;
}

static int chinese_quantity_find_utf8(State m, long l0, long l1, long l2, int l3, int l4, long l5, long l6, long l7) {
 L1: {
  if (Core1.f0(m) == 0) { break L1; }
  Core1.f2(m);
  throw State.trap();
 }
 l4 = Core9.f356(m, l0, l1, l2, l3, l4, l5, l6, l7);
 Core1.f1(m);
 return l4;
}

static int chinese_quantity_find(State m, long l0, long l1, long l2, int l3, int l4, long l5, long l6, long l7) {
 L1: {
  if (Core1.f0(m) == 0) { break L1; }
  Core1.f2(m);
  throw State.trap();
 }
 l4 = Core9.f358(m, l0, l1, l2, l3, l4, l5, l6, l7);
 Core1.f1(m);
 return l4;
}

static int chinese_speech_left(State m, long l0, long l1, long l2, int l3, int l4, long l5, long l6, long l7, long l8, long l9) {
 L1: {
  if (Core1.f0(m) == 0) { break L1; }
  Core1.f2(m);
  throw State.trap();
 }
 l4 = Core9.f360(m, l0, l1, l2, l3, l4, l5, l6, l7, l8, l9);
 Core1.f1(m);
 return l4;
}

static int chinese_number_explain(State m, long l0, long l1, int l2, int l3, long l4) {
 L1: {
  if (Core1.f0(m) == 0) { break L1; }
  Core1.f2(m);
  throw State.trap();
 }
 l3 = Core9.f362(m, l0, l1, l2, l3, l4);
 Core1.f1(m);
 return l3;
}

static int chinese_number_message(State m, long l0, long l1, int l2, int l3, int l4, long l5, long l6, long l7) {
 L1: {
  if (Core1.f0(m) == 0) { break L1; }
  Core1.f2(m);
  throw State.trap();
 }
 l4 = Core9.f364(m, l0, l1, l2, l3, l4, l5, l6, l7);
 Core1.f1(m);
 return l4;
}

static int chinese_number_read_utf8(State m, long l0, long l1, int l2, int l3, long l4) {
 L1: {
  if (Core1.f0(m) == 0) { break L1; }
  Core1.f2(m);
  throw State.trap();
 }
 l3 = Core9.f366(m, l0, l1, l2, l3, l4);
 Core1.f1(m);
 return l3;
}

static int chinese_numbers_read_column(State m, long l0, long l1, long l2, long l3, long l4, long l5, long l6, int l7, int l8, long l9, long l10, long l11, long l12) {
 L1: {
  if (Core1.f0(m) == 0) { break L1; }
  Core1.f2(m);
  throw State.trap();
 }
 l8 = Core9.f368(m, l0, l1, l2, l3, l4, l5, l6, l7, l8, l9, l10, l11, l12);
 Core1.f1(m);
 return l8;
}

static int chinese_wide_numbers_read_column(State m, long l0, long l1, long l2, long l3, long l4, long l5, long l6, int l7, int l8, long l9, long l10, long l11, long l12) {
 L1: {
  if (Core1.f0(m) == 0) { break L1; }
  Core1.f2(m);
  throw State.trap();
 }
 l8 = Core9.f370(m, l0, l1, l2, l3, l4, l5, l6, l7, l8, l9, l10, l11, l12);
 Core1.f1(m);
 return l8;
}

static int chinese_quantities_to_figures(State m, long l0, long l1, int l2, int l3, int l4, int l5, long l6, long l7, long l8) {
 L1: {
  if (Core1.f0(m) == 0) { break L1; }
  Core1.f2(m);
  throw State.trap();
 }
 l5 = Core9.f372(m, l0, l1, l2, l3, l4, l5, l6, l7, l8);
 Core1.f1(m);
 return l5;
}

static int chinese_quantity_explain(State m, long l0, long l1, int l2, long l3) {
 L1: {
  if (Core1.f0(m) == 0) { break L1; }
  Core1.f2(m);
  throw State.trap();
 }
 l2 = Core9.f374(m, l0, l1, l2, l3);
 Core1.f1(m);
 return l2;
}

static int chinese_quantity_message(State m, long l0, long l1, int l2, int l3, long l4, long l5, long l6) {
 L1: {
  if (Core1.f0(m) == 0) { break L1; }
  Core1.f2(m);
  throw State.trap();
 }
 l3 = Core9.f376(m, l0, l1, l2, l3, l4, l5, l6);
 Core1.f1(m);
 return l3;
}

static int chinese_quantity_read(State m, long l0, long l1, int l2, long l3) {
 L1: {
  if (Core1.f0(m) == 0) { break L1; }
  Core1.f2(m);
  throw State.trap();
 }
 l2 = Core9.f378(m, l0, l1, l2, l3);
 Core1.f1(m);
 return l2;
}

static int chinese_text_to_figures(State m, long l0, long l1, int l2, int l3, int l4, int l5, long l6, long l7, long l8) {
 L1: {
  if (Core1.f0(m) == 0) { break L1; }
  Core1.f2(m);
  throw State.trap();
 }
 l5 = Core10.f380(m, l0, l1, l2, l3, l4, l5, l6, l7, l8);
 Core1.f1(m);
 return l5;
}

static int chinese_quantity_print(State m, long l0, int l1, int l2, int l3, long l4, long l5, long l6) {
 L1: {
  if (Core1.f0(m) == 0) { break L1; }
  Core1.f2(m);
  throw State.trap();
 }
 l3 = Core10.f382(m, l0, l1, l2, l3, l4, l5, l6);
 Core1.f1(m);
 return l3;
}

static int chinese_number_read(State m, long l0, long l1, int l2, int l3, long l4) {
 L1: {
  if (Core1.f0(m) == 0) { break L1; }
  Core1.f2(m);
  throw State.trap();
 }
 l3 = Core10.f384(m, l0, l1, l2, l3, l4);
 Core1.f1(m);
 return l3;
}

static int chinese_numbers_print_column(State m, long l0, long l1, long l2, long l3, long l4, int l5, int l6, int l7, int l8, long l9, long l10, long l11, long l12, long l13, long l14, long l15) {
 L1: {
  if (Core1.f0(m) == 0) { break L1; }
  Core1.f2(m);
  throw State.trap();
 }
 l8 = Core10.f386(m, l0, l1, l2, l3, l4, l5, l6, l7, l8, l9, l10, l11, l12, l13, l14, l15);
 Core1.f1(m);
 return l8;
}

static int chinese_wide_numbers_print_column(State m, long l0, long l1, long l2, long l3, long l4, int l5, int l6, int l7, int l8, long l9, long l10, long l11, long l12, long l13, long l14, long l15) {
 L1: {
  if (Core1.f0(m) == 0) { break L1; }
  Core1.f2(m);
  throw State.trap();
 }
 l8 = Core10.f388(m, l0, l1, l2, l3, l4, l5, l6, l7, l8, l9, l10, l11, l12, l13, l14, l15);
 Core1.f1(m);
 return l8;
}

static int chinese_text_to_speech(State m, long l0, long l1, int l2, int l3, int l4, int l5, int l6, long l7, long l8, long l9, long l10, long l11) {
 L1: {
  if (Core1.f0(m) == 0) { break L1; }
  Core1.f2(m);
  throw State.trap();
 }
 l6 = Core10.f390(m, l0, l1, l2, l3, l4, l5, l6, l7, l8, l9, l10, l11);
 Core1.f1(m);
 return l6;
}

static int chinese_number_print(State m, long l0, long l1, int l2, int l3, int l4, int l5, long l6, long l7, long l8) {
 L1: {
  if (Core1.f0(m) == 0) { break L1; }
  Core1.f2(m);
  throw State.trap();
 }
 l5 = Core10.f392(m, l0, l1, l2, l3, l4, l5, l6, l7, l8);
 Core1.f1(m);
 return l5;
}
}
