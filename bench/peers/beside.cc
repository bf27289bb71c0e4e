// Measures peers of the library's collections, on the rows of cordyceps_speed. A program that is built with OF_BORDER
// measures the calls of the library for C and their peers.
//
//   beside rows                                prints each row with a peer
//   beside ROW PEER NUMBER ROUNDS              prints the nanoseconds that one operation takes, on the mean
//   beside ROW PEER PRODUCERS MILLISECONDS     where threads meet, prints how many elements came out in which time
//
// NUMBER is how many elements the collection holds, and PRODUCERS how many threads put in. As in cordyceps_speed,
// elements are made before the clock starts, and wait in a vector where they are in no collection. Each row adds up
// what it saw, and the program ends with status 1 if a sum is not that of its elements.
#include "measure.h"

#include <thread>

std::map<std::pair<std::string, std::string>, Row> one_thread, meetings;

static int show_rows() {
  for (auto *rows : {&one_thread, &meetings}) {
    for (auto &[row, run] : *rows) std::printf("%s\t%s\n", row.first.c_str(), row.second.c_str());
  }
  return 0;
}

int main(int count, char **words) {
  // (until a process has had a second thread, the C library locks by plain stores)
  std::thread([] {}).join();
#ifdef OF_BORDER
  add_border();
#else
  add_lists();
  add_many();
  add_maps();
  add_shared();
#endif
  std::string asked = count > 1 ? words[1] : "";
  if (asked == "rows" && count == 2) return show_rows();
  bool is_meeting = asked.rfind("meet ", 0) == 0;
  auto &rows = is_meeting ? meetings : one_thread;
  auto row = count == 5 ? rows.find({asked, words[2]}) : rows.end();
  if (row == rows.end()) {
    std::fputs("usage: beside rows | ROW PEER NUMBER ROUNDS | ROW PEER PRODUCERS MILLISECONDS\n", stderr);
    return 2;
  }
  Time time = row->second(std::strtoul(words[3], nullptr, 10), std::strtoul(words[4], nullptr, 10));
  if (is_meeting) {
    std::printf("%.0f elements in %.0f ns\n", time.operations, time.nanoseconds);
  } else {
    std::printf("%.3f\n", time.nanoseconds / time.operations);
  }
  return 0;
}
