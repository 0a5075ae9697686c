/* Prints the code that libpcap makes of an expression on octets without a link layer of its own: its length, then each
 * instruction in the eight octets of `struct bpf_insn`, big-endian, in hexadecimal.
 *
 *   expression 'link[0] = 1'
 */
#include <pcap/pcap.h>
#include <stdio.h>

enum { OCTETS = 52, OPTIMIZE = 1 };

int main(int count, char **words)
{
	if (count != 2) {
		fprintf(stderr, "expression: one expression is wanted\n");
		return 2;
	}
	pcap_t *dead = pcap_open_dead(DLT_USER0, OCTETS);
	struct bpf_program program;
	if (!dead || pcap_compile(dead, &program, words[1], OPTIMIZE, PCAP_NETMASK_UNKNOWN) != 0) {
		fprintf(stderr, "expression: %s\n", dead ? pcap_geterr(dead) : "out of memory");
		return 1;
	}
	printf("%u\n", program.bf_len);
	for (unsigned at = 0; at < program.bf_len; at++) {
		const struct bpf_insn *it = &program.bf_insns[at];
		printf("%04x%02x%02x%08x", it->code, it->jt, it->jf, it->k);
	}
	printf("\n");
	pcap_freecode(&program);
	pcap_close(dead);
	return 0;
}
