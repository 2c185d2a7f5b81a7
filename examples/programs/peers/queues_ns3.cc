// The Jackson network of tools/check-queues by the core of ns-3 (Debian: libns3-dev): queues_ns3 END COPIES WARM RUN.
//
// It prints how many events there were: somebody comes from outside, a service ends, somebody comes from another station.
// Then it prints the mean stay of those who left the network from tick WARM on.
#include "ns3/core-module.h"
#include <cmath>
#include <cstdio>
#include <cstdlib>
#include <deque>
#include <iterator>
#include <memory>
#include <vector>

using namespace ns3;

struct Way {
  double part;  // of those who go there or to one before it
  uint32_t to;
};

struct Station {
  uint32_t servers;
  double mean;
  std::vector<Way> ways;
};

static const double arrivals = 20000;
static const Station stations[] = {{1, 10000, {{0.6, 1}, {0.85, 2}}}, {2, 20000, {{0.5, 2}}}, {1, 9000, {{0.3, 0}}}};

static Ptr<ExponentialRandomVariable> exponential;
static Ptr<UniformRandomVariable> uniform;
static Time warm, stays;
static uint64_t events, left;

static Time Draw(double mean) { return NanoSeconds(std::llround(exponential->GetValue(mean, 0))); }

// A copy of the network.
class Network {
 public:
  Network() { Expect(); }

 private:
  struct Desk {
    uint32_t busy = 0;
    std::deque<Time> waiting;  // when those came to the network who wait here
  };

  void Expect() { Simulator::Schedule(Draw(arrivals), &Network::Arrive, this); }

  void Arrive() {
    events++;
    Expect();
    Take(0, Simulator::Now());
  }

  void Come(uint32_t at, Time born) {
    events++;
    Take(at, born);
  }

  void Take(uint32_t at, Time born) {
    if (m_desks[at].busy < stations[at].servers) {
      Serve(at, born);
    } else {
      m_desks[at].waiting.push_back(born);
    }
  }

  void Serve(uint32_t at, Time born) {
    m_desks[at].busy++;
    Simulator::Schedule(Draw(stations[at].mean), &Network::End, this, at, born);
  }

  void End(uint32_t at, Time born) {
    events++;
    Desk& desk = m_desks[at];
    desk.busy--;
    if (!desk.waiting.empty()) {
      Time next = desk.waiting.front();
      desk.waiting.pop_front();
      Serve(at, next);
    }
    GoOn(at, born);
  }

  void GoOn(uint32_t at, Time born) {
    double drawn = uniform->GetValue();
    for (const Way& way : stations[at].ways) {
      if (drawn < way.part) {
        Simulator::Schedule(NanoSeconds(1), &Network::Come, this, way.to, born);
        return;
      }
    }
    if (Simulator::Now() < warm) return;
    left++;
    stays += Simulator::Now() - born;
  }

  Desk m_desks[std::size(stations)];
};

int main(int, char** words) {
  RngSeedManager::SetRun(std::strtoull(words[4], nullptr, 10));
  exponential = CreateObject<ExponentialRandomVariable>();
  uniform = CreateObject<UniformRandomVariable>();
  warm = NanoSeconds(std::strtoull(words[3], nullptr, 10));
  std::vector<std::unique_ptr<Network>> copies;
  for (int copy = std::atoi(words[2]); copy > 0; copy--) copies.push_back(std::make_unique<Network>());
  Simulator::Stop(NanoSeconds(std::strtoull(words[1], nullptr, 10)));
  Simulator::Run();
  std::printf("%lu %.1f\n", events, stays.GetDouble() / left);
}
