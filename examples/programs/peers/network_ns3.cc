// The network of a file of tools/topology in ns-3, with regular flows: each link is a channel of its own with a drop-tail queue.
// It prints a line `tick 0 node 1 latency` for each packet that arrives, as network.c does, and then how many events a second
// ns-3 has handled.
#include "ns3/core-module.h"
#include "ns3/network-module.h"
#include "ns3/point-to-point-module.h"
#include <chrono>
#include <cstdio>
#include <cstring>
#include <fstream>
#include <iterator>
#include <vector>

using namespace ns3;

static std::vector<char> bytes;
static std::vector<std::vector<Ptr<PointToPointNetDevice>>> devices;

static const uint32_t* Words() { return reinterpret_cast<const uint32_t*>(bytes.data()); }
static const uint32_t* NodeAt(uint32_t node) { return Words() + Words()[1] + 3 * node; }
static const uint32_t* LinkAt(uint32_t link) { return Words() + Words()[2] + 4 * link; }
static const uint32_t* FlowAt(uint32_t flow) { return Words() + Words()[3] + 8 * flow; }
static uint64_t TickAt(const uint32_t* words) { return words[0] | uint64_t(words[1]) << 32; }

struct Label {
  uint64_t born;
  uint32_t flow;
};

static void PassOn(uint32_t node, Ptr<Packet> packet, const Label& label) {
  uint32_t dest = FlowAt(label.flow)[0];
  if (node == dest) {
    uint64_t now = Simulator::Now().GetNanoSeconds();
    std::printf("%lu 0 %u 1 %lu\n", now, node, now - label.born);
    return;
  }
  uint8_t link = reinterpret_cast<const uint8_t*>(Words() + Words()[4])[node * Words()[0] + dest];
  devices[node][link]->Send(packet, Mac48Address::GetBroadcast(), 0x0800);
}

static bool Receive(Ptr<NetDevice> device, Ptr<const Packet> packet, uint16_t, const Address&) {
  Label label;
  packet->CopyData(reinterpret_cast<uint8_t*>(&label), sizeof label);
  PassOn(device->GetNode()->GetId(), packet->Copy(), label);
  return true;
}

static void SendPacket(uint32_t node, uint32_t flow) {
  const uint32_t* words = FlowAt(flow);
  uint64_t now = Simulator::Now().GetNanoSeconds();
  if (now + words[2] < TickAt(words + 6)) Simulator::Schedule(NanoSeconds(words[2]), &SendPacket, node, flow);
  // The device adds a head of two bytes.
  std::vector<uint8_t> payload(words[1] - 2);
  Label label{now, flow};
  std::memcpy(payload.data(), &label, sizeof label);
  PassOn(node, Create<Packet>(payload.data(), payload.size()), label);
}

static Ptr<PointToPointNetDevice> Device(Ptr<Node> node, Ptr<PointToPointChannel> channel, const uint32_t* link) {
  auto device = CreateObject<PointToPointNetDevice>();
  device->SetAddress(Mac48Address::Allocate());
  device->SetDataRate(DataRate(uint64_t(8e9 * 65536 / link[2] + 0.5)));
  auto queue = CreateObject<DropTailQueue<Packet>>();
  queue->SetMaxSize(QueueSize(QueueSizeUnit::BYTES, link[3]));
  device->SetQueue(queue);
  node->AddDevice(device);
  device->Attach(channel);
  return device;
}

int main(int, char** words) {
  std::ifstream file(words[1], std::ios::binary);
  bytes.assign(std::istreambuf_iterator<char>(file), {});
  NodeContainer nodes;
  nodes.Create(Words()[0]);
  devices.resize(Words()[0]);
  for (uint32_t node = 0; node < Words()[0]; node++) {
    uint32_t after = node + 1 < Words()[0] ? NodeAt(node + 1)[0] : (Words()[3] - Words()[2]) / 4;
    for (uint32_t link = NodeAt(node)[0]; link < after; link++) {
      auto channel = CreateObject<PointToPointChannel>();
      channel->SetAttribute("Delay", TimeValue(NanoSeconds(LinkAt(link)[1])));
      devices[node].push_back(Device(nodes.Get(node), channel, LinkAt(link)));
      Device(nodes.Get(LinkAt(link)[0]), channel, LinkAt(link))->SetReceiveCallback(MakeCallback(&Receive));
    }
    for (uint32_t flow = NodeAt(node)[1]; flow < NodeAt(node)[1] + NodeAt(node)[2]; flow++) {
      Simulator::Schedule(NanoSeconds(TickAt(FlowAt(flow) + 4)), &SendPacket, node, flow);
    }
  }
  Simulator::Stop(NanoSeconds(std::strtoull(words[2], nullptr, 10)));
  auto begun = std::chrono::steady_clock::now();
  Simulator::Run();
  double seconds = std::chrono::duration<double>(std::chrono::steady_clock::now() - begun).count();
  std::fprintf(stderr, "%lu events, %.2f s, %.0f a second\n", Simulator::GetEventCount(), seconds, Simulator::GetEventCount() / seconds);
}
