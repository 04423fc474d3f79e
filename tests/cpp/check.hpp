// What the parts of the check share. What a check tells is counted, and named if it is not so.
#ifndef CHECK_HPP
#define CHECK_HPP

#include "tlx.hpp"

void tell(const std::string &name, bool is_so);

// Memories at 0x1000 and 0x2000, of which nobody cleared the second, a device at 0x3000, and a master with two sources.
extern const char SYSTEM[];

// A memory that keeps its bytes at a reset, and registers at 0x2000 that hold again what they held before.
extern const char RESETS[];

// Whether the library is refused memory from now on.
extern bool is_library_refused;

#ifndef TLX_NO_EXCEPTIONS
// Whether a call throws this fault, with this text; of no text the fault's words.
template <typename Call>
bool throws(tlx::Fault fault, const std::string &text, Call call) {
  try {
    call();
  } catch (const std::runtime_error &caught) {
    const auto *error = dynamic_cast<const tlx::Error *>(&caught);
    return error && error->fault() == fault && error->what() == (text.empty() ? tlx::words(fault) : text);
  }
  return false;
}
#endif

// judges.cpp: judges, resets, bytes, and the makers of requests and beats
void check_judges();
tlx::Model moved_there_and_back(tlx::Model model);

#endif
