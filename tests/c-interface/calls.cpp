// The header from C++: a host that keeps devices in a container, with the calls inside a class. `run` compiles it with old-style casts
// forbidden, so the header has none.
#include <cstdio>
#include <memory>
#include <string>
#include <vector>

#include "rocker.h"

namespace {

class Switch {
public:
    explicit Switch(std::uint64_t ports) : device(new rocker()), memory(4096), buffer(ROCKER_RECORD)
    {
        good = rocker_size() == sizeof(rocker) && rocker_fresh(device.get(), ports, 7) == ROCKER_DONE;
    }

    Switch(const Switch &other) : good(other.good), device(new rocker(*other.device)), memory(other.memory), buffer(other.buffer) {}

    std::uint64_t read(std::uint64_t offset, std::uint64_t width) const
    {
        std::uint64_t value = 0;
        return rocker_read(device.get(), offset, width, &value) == ROCKER_DONE ? value : UINT64_MAX;
    }

    rocker_outcome write(std::uint64_t offset, std::uint64_t width, std::uint64_t value)
    {
        rocker_outcome o;
        good = good && rocker_write(device.get(), offset, width, value, &o) == ROCKER_DONE;
        return o;
    }

    std::uint32_t process(rocker_outcome &o)
    {
        return rocker_process(device.get(), memory.data(), memory.size(), buffer.data(), buffer.size(), &o);
    }

    std::string header()
    {
        rocker_outcome o;
        good = good && rocker_header(device.get(), buffer.data(), buffer.size(), &o) == ROCKER_DONE;
        return std::string(buffer.begin(), buffer.begin() + ROCKER_HEADER_BYTES);
    }

    std::uint64_t outputs(std::uint64_t port)
    {
        std::vector<std::uint8_t> frame(64);
        std::vector<std::uint16_t> list(ROCKER_LIST);
        std::uint64_t n = 0;
        good = good && rocker_link(device.get(), port, 1) == ROCKER_DONE;
        return rocker_frame(device.get(), port, frame.data(), frame.size(), list.data(), list.size(), &n) == ROCKER_DONE ? n : UINT64_MAX;
    }

    std::uint64_t value_by_kind(std::uint64_t offset)
    {
        rocker_outcome o;
        std::uint16_t list = 0;
        std::uint32_t answer = rocker_call(device.get(), ROCKER_READ, offset, 8, 0, memory.data(), 0, memory.data(), 0, buffer.data(), 0,
                                           &list, 0, &o);
        return answer == ROCKER_DONE ? o.value : UINT64_MAX;
    }

    bool good;

private:
    std::unique_ptr<rocker> device;
    std::vector<std::uint8_t> memory, buffer;
};

bool holds()
{
    Switch one(4);
    rocker_outcome o;
    one.write(ROCKER_REG_SIZE, 4, 8);
    one.write(ROCKER_REG_HEAD, 4, 1);
    Switch other(one);
    if (one.process(o) != ROCKER_DONE || o.completed != ROCKER_COMPLETED + ROCKER_STATUS_EINVAL || o.raised != 1 || o.reset != 0)
        return false;
    if (one.process(o) != ROCKER_IDLE || other.process(o) != ROCKER_DONE || one.outputs(1) != 0)
        return false;
    if (other.write(ROCKER_REG_TEST, 4, 2).reset != 0 || other.write(ROCKER_REG_CONTROL, 4, ROCKER_RESET).reset != 1)
        return false;
    return one.good && other.good && one.read(ROCKER_REG_SIZE, 4) == 8 && other.read(ROCKER_REG_SIZE, 4) == 0
        && one.value_by_kind(ROCKER_REG_SWITCH_ID) == 7 && one.header() == std::string("RKT\3\0\4", 6);
}

} // namespace

int main()
{
    const std::uint16_t numbers[3] = {0x02aa, 0x0001, 0x0203};
    std::uint8_t mac[6];
    rocker_mac(numbers, mac);
    if (!holds() || mac[0] != 2 || mac[1] != 0xaa || mac[2] != 0 || mac[3] != 1 || mac[4] != 2 || mac[5] != 3) {
        std::puts("calls.cpp: a call from C++ gives something else");
        return 1;
    }
    return 0;
}
