"""How the simulators of examples/programs/peers are run, where what they need is installed."""

import os
import shutil
import subprocess
import sys

PEERS = os.path.join(os.path.dirname(os.path.dirname(os.path.abspath(__file__))), "examples", "programs", "peers")
NS3_MODULES = {"network_ns3": ["ns3-core", "ns3-network", "ns3-point-to-point"], "queues_ns3": ["ns3-core"]}


def build_ns3(peer, folder):
    """The words that run a peer by ns-3, or none where it can't be built."""
    if not shutil.which("pkg-config") or not shutil.which("g++"):
        return None
    found = subprocess.run(["pkg-config", "--cflags", "--libs", *NS3_MODULES[peer]], stdout=subprocess.PIPE, stderr=subprocess.DEVNULL, text=True)
    program = f"{folder}/{peer}"
    words = ["g++", "-O2", "-w", f"{PEERS}/{peer}.cc", "-o", program, *found.stdout.split()]
    return [program] if found.returncode == 0 and subprocess.run(words).returncode == 0 else None


def find_simpy(peer):
    """The words that run a peer by SimPy, or none where no Python has it."""
    for python in (sys.executable, "/usr/bin/python3"):
        if subprocess.run([python, "-c", "import simpy"], stderr=subprocess.DEVNULL).returncode == 0:
            return [python, f"{PEERS}/{peer}.py"]
    return None
