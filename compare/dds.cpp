// Asks libdds for worths. Each line of standard input is a deal as numbers: trump, leader, the number of cards in the
// trick, these cards, and for each player the number of its cards and the cards. For each it prints the tricks that
// the side to play takes of those left, the one on the table among them, or "error" and libdds's number.
#include <dds/dll.h>
#include <iostream>
#include <sstream>
#include <string>

// libdds counts suits from spades 0 to clubs 3, with 4 for no trump, and ranks from 2 to 14.
static int suit_of(int card) { return 3 - card / 13; }
static int rank_of(int card) { return card % 13 + 2; }

int main() {
  SetResources(200, 1);
  std::string line;
  while (std::getline(std::cin, line)) {
    std::istringstream in(line);
    deal d = {};
    int trump, lying, card, number;
    in >> trump >> d.first >> lying;
    d.trump = trump == 4 ? 4 : 3 - trump;
    for (int i = 0; i < lying; i++) {
      in >> card;
      d.currentTrickSuit[i] = suit_of(card);
      d.currentTrickRank[i] = rank_of(card);
    }
    for (int p = 0; p < 4; p++) {
      in >> number;
      for (int i = 0; i < number; i++) {
        in >> card;
        d.remainCards[p][suit_of(card)] |= 1u << rank_of(card);
      }
    }
    futureTricks answer;
    int status = SolveBoard(d, -1, 1, 1, &answer, 0);
    if (status == 1)
      std::cout << answer.score[0] << std::endl;
    else
      std::cout << "error " << status << std::endl;
  }
}
