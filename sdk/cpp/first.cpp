// Two recordings, one collection, one delivery, one table: the script of examples/first.otm, in C++.
#include <iostream>
#include <kotskhin.hpp>

int main() {
    kotskhin::Plan plan{{"app", "requests", "1", KIT_COUNTER}};
    kotskhin::Writer writer(plan, "shop", 0, 1, 100);
    kotskhin::Attributes none{};
    writer.measure(0, none, 3);
    kotskhin::Writer moved = std::move(writer);
    moved.measure_held(moved.hold(0, none), 4);

    kotskhin::Gateway gateway(1), other(2);
    kotskhin::Export collected = moved.collect(200);
    gateway.take(collected);
    other.take(collected);
    other.merge(gateway);
    std::cout << other.sum("app", "requests", "1");
    try {
        moved.measure(0, none, -1);
        return 1;
    } catch (const kotskhin::Refused &refused) {
        return refused.code == KIT_NEGATIVE ? 0 : 2;
    }
}
