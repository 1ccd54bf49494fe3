// The five parts of the measurement. Each prints its table and adds its goals.
#pragma once
#include "goals.hpp"

// Q beside `//f` of pugixml and libxml2, and the tree check alone, on 24 documents.
void measure_q(Goals &goals);

// f(x*, a, y*, b, z*) beside SWI-Prolog and Maude. A command is empty where the program is not on this machine.
void measure_matchers(Goals &goals, const char *prolog, const char *maude);

// Nanoseconds a try.
void measure_tries(Goals &goals);

// Page k of 100 beside page 1, and beside k pages listed from the start.
void measure_pages(Goals &goals);

// A panel of 16 times Q beside 16 calls of Q, on the 24 documents.
void measure_panel(Goals &goals);
