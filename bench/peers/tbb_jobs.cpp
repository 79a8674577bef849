// SPDX-License-Identifier: Apache-2.0
// Peer: jobs of so many adds each through oneTBB's task_group. usage: tbb_jobs JOBS ADDS THREADS
#include <oneapi/tbb/task_group.h>
#include <oneapi/tbb/global_control.h>
#include <chrono>
#include <cstdio>
#include <cstdlib>
static void job(long adds) { volatile long sum = 0; for (long i = 0; i < adds; i++) sum = sum + 1; }
int main(int argc, char **argv) {
  long jobs = atol(argv[1]), adds = atol(argv[2]); int t = atoi(argv[3]);
  oneapi::tbb::global_control c(oneapi::tbb::global_control::max_allowed_parallelism, t);
  auto a = std::chrono::steady_clock::now();
  oneapi::tbb::task_group g;
  for (long i = 0; i < jobs; i++) g.run([adds] { job(adds); });
  g.wait();
  printf("%.6f\n", std::chrono::duration<double>(std::chrono::steady_clock::now() - a).count());
}
