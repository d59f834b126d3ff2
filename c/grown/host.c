/* host PLUGIN: two versions of the library in one process.  Both say whose call they
 * have, by where it lies, and whether it answers; the status is 0 where they differ.
 * With -DPLUGIN it is the plugin. */
#include <dlfcn.h>
#include <stdio.h>
#include "tuvaddri.h"

#ifdef PLUGIN
const void *used(void);

const void *used(void)
{
	return tuv_end_size() ? (const void *) (size_t) tuv_end_size : NULL;
}
#else
int main(int argc, char *argv[])
{
	void *plugin = argc == 2 ? dlopen(argv[1], RTLD_NOW) : NULL;
	const void *(*used)(void);
	const void *own = tuv_end_size() ? (const void *) (size_t) tuv_end_size : NULL;

	if (!plugin) {
		puts(argc == 2 ? dlerror() : "usage: host PLUGIN");
		return 2;
	}
	*(void **) &used = dlsym(plugin, "used");
	return !used || !used() || used() == own;
}
#endif
