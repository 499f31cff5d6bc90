// An archive adopts a worker, a gateway forgets it, and no total moves: the third program of docs/use/CPP.md.
#include <iostream>
#include <kotskhin.hpp>

using namespace kotskhin;

int main() {
    Writer worker(Plan({{"app", "sales", "1", Kind::Counter}}), "shop", Instance{0, 1}, 100);
    Gateway gateway(1);
    Archive archive("shop", 1000);
    worker.measure(0, {}, 7);
    gateway.take(worker.collect(200));
    archive.adopt(gateway, "shop", Instance{0, 1}, 100);
    gateway.take(archive.export_at(300));
    std::cout << (gateway.take(worker.shutdown(400)).is_late ? "late\n" : "taken\n");
    std::cout << gateway.sum("app", "sales", "1");
}
