/* The few words of the Linux kernel that its hdmi.c uses, for a program outside the kernel. Ours; nothing here is the kernel's text. */
#ifndef KERNEL_H
#define KERNEL_H

#include <errno.h>
#include <stdbool.h>
#include <stddef.h>
#include <stdint.h>
#include <string.h>
#include <sys/types.h>

typedef uint8_t u8;
typedef uint16_t u16;
typedef uint32_t u32;
struct device;
struct dp_sdp_header { u8 HB0, HB1, HB2, HB3; };
struct dp_sdp { struct dp_sdp_header sdp_header; u8 db[32]; };
#define DP_SDP_AUDIO_INFOFRAME_HB2 0

#define EXPORT_SYMBOL(name) extern int the_export_of_##name
#define WARN_ON(condition) ((condition) != 0)
#define WARN(condition, ...) ((condition) != 0)
#define BIT(n) (1UL << (n))
#define min(a, b) ((a) < (b) ? (a) : (b))
#define dev_printk(level, device, ...) ((void)(level), (void)(device))

#endif
