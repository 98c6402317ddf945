/* The proved loader's C interface (library libhost_interface.a).
 *
 * Every pointer points to as many elements as its length says, also where the
 * length is 0, and no part that is written overlaps another. The calls keep
 * nothing and allocate nothing; they may run in several threads at once, on
 * parts of their own. Numbers and places are those of document 01.
 */
#ifndef PCC_H
#define PCC_H

#include <stddef.h>
#include <stdint.h>

#ifdef __cplusplus
extern "C" {
#endif

/* Words of workspace that pcc_check asks for. */
#define PCC_WORKSPACE_WORDS 16384

/* Registers that pcc_run asks for. */
#define PCC_REGISTERS 16

/* Judges a package under a policy. answer: number (0 is accepted), place, goals
 * derived. A workspace of fewer than PCC_WORKSPACE_WORDS words is refused (1)
 * and left as it was; any other is left all zero. The call takes up to 414 KB of
 * stack, for a path of 512 branches; its thread should have 512 KB. */
void pcc_check(uint32_t *workspace, size_t words,
               const uint8_t *policy, size_t policy_len,
               const uint8_t *package, size_t package_len,
               uint64_t answer[3]);

/* Runs a package for at most budget steps from the registers and the memory
 * given. answer: number (0 returned, 20 budget spent, 21 access without the
 * right, 22 past the last instruction, else the check that refuses), place,
 * steps. Registers and memory hold the machine's state afterwards; if a check
 * refuses they are left as they were. In every run a memory word that the policy
 * does not make writable keeps what it held. */
void pcc_run(const uint8_t *policy, size_t policy_len,
             const uint8_t *package, size_t package_len,
             uint32_t *registers, size_t register_words,
             uint32_t *memory, size_t memory_words,
             uint32_t budget, uint64_t answer[3]);

/* Finds the proof section of a package and gives its length (0 after a
 * refusal). answer: number (0, or 7 if header or length are wrong), place, the
 * section's first byte. */
size_t pcc_find_proof(const uint8_t *package, size_t package_len,
                      uint64_t answer[3]);

#ifdef __cplusplus
}
#endif

#endif
