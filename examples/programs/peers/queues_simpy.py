"""The Jackson network of tools/check-queues by SimPy (Debian: python3-simpy3): queues_simpy.py END COPIES WARM SEED.

It prints how many events there were: somebody comes from outside, a service ends, somebody comes from another station. Then it
prints the mean stay of those who left the network from tick WARM on."""

import random
import sys

import simpy

end, copies, warm, seed = map(int, sys.argv[1:])
drawn, env = random.Random(seed), simpy.Environment()
count = left = stays = 0


def customer(desks):
    global count, left, stays
    at, born = 0, env.now
    while at is not None:
        desk, mean, ways = desks[at]
        with desk.request() as place:
            yield place
            yield env.timeout(drawn.expovariate(1 / mean))
        count += 1
        way = drawn.random()
        at = next((to for part, to in ways if way < part), None)
        if at is not None:
            yield env.timeout(1)
            count += 1
    if env.now >= warm:
        left += 1
        stays += env.now - born


def source(desks):
    global count
    while True:
        yield env.timeout(drawn.expovariate(1 / 20000))
        count += 1
        env.process(customer(desks))


for _ in range(copies):
    env.process(source([(simpy.Resource(env, 1), 10000, [(0.6, 1), (0.85, 2)]), (simpy.Resource(env, 2), 20000, [(0.5, 2)]),
                        (simpy.Resource(env, 1), 9000, [(0.3, 0)])]))
env.run(until=end)
print(count, f"{stays / left:.1f}")
