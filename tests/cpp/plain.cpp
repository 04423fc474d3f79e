// tlx.hpp without exceptions: the forms that throw are not there, and the others work. The last line is 'N passed, M failed'.
#include "tlx.hpp"

#include <cstdio>

using tlx::Fault;

template <typename Object, typename = void>
struct Throws : std::false_type {};
template <typename Object>
struct Throws<Object, std::void_t<decltype(&Object::reset)>> : std::true_type {};
static_assert(!Throws<tlx::Model>::value && !Throws<tlx::Judge>::value);
static_assert(!std::is_constructible_v<tlx::Model, tlx::System &> && !std::is_constructible_v<tlx::Judge, tlx::System &>);

int main() {
  tlx::System system;
  tlx::Model model;
  tlx::Judge judge;
  tlx_answer answer = {};
  std::string why;
  int passed = 0, failed = 0;
  const auto tell = [&](bool is_so) { (is_so ? passed : failed)++; };
  tell(system.try_read("port = 1", &why) == Fault::wrong_type && why == "system: wrong type of port");
  tell(system.try_read("[[port]]\nkind = \"ram\"\nbase = 0x1000\nlength = 64\n[[master]]\nsources = 1\n", &why) == Fault::ok && why.empty());
  tell(model.try_make(system) == Fault::ok && judge.try_make(system, TLX_MASTER_LINKS) == Fault::ok);
  tell(model.try_serve(0, tlx::get(0x1000, 2), answer) == Fault::ok && answer.count == 4);
  tell(judge.try_step(tlx::beat_d(TLX_MASTER, 0, 1, 2, 0)) == Fault::no_request && !judge.text().empty());
  std::printf("%d passed, %d failed\n", passed, failed);
  return failed > 0;
}
