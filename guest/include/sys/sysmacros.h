/* Numbers of devices, of which there are none. */
#ifndef _SYS_SYSMACROS_H
#define _SYS_SYSMACROS_H

#define major(device) ((unsigned)((device) >> 8))
#define minor(device) ((unsigned)((device)&0xff))
#define makedev(high, low) ((dev_t)(high) << 8 | (dev_t)(low))

#endif
