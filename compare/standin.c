/* The reference in the place of the library under test: for trying the programs where the proved library is not built. */
#include "harness.h"

const library tested_library = {"stand-in", reference_check, reference_translate, reference_run_module,
                                reference_run_netlist};
