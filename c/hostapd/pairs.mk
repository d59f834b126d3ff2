# Builds `pairs`, for check: wpa_supplicant's and hostapd's machines with their methods and with the library's, and the
# library's own ends; for ../fuzz/run the `machines` alone. SOURCE is their unpacked source, HERE this file's folder, LIBRARY
# the library's, CC the compiler.

# What of their source the logins stand on.
theirs := $(addsuffix .o,common wpabuf os_unix wpa_debug eap_common eap_gpsk_common eap_psk_common eap eap_methods \
	eap_gpsk eap_psk eap_server eap_server_methods eap_server_identity eap_server_gpsk eap_server_psk \
	aes-omac1 aes-ctr aes-eax aes-encblock aes-internal aes-internal-enc sha256-prf sha256-internal sha256 \
	sha1-internal sha1 md5-internal md5 crypto_internal tls_none)
# What stands between their machines and the library.
between := supplicant_peer.o hostapd_server.o peer_47.o peer_51.o server_47.o server_51.o
ours := library_ends.o pairs.o
CC := gcc

pairs: $(theirs) $(between) $(ours)
	$(CC) -O2 -Wl,--gc-sections,-z,lazy -o $@ $^ $(LIBRARY)/libtuvaddri.a

machines: $(theirs) $(between)

vpath %.c $(addprefix $(SOURCE)/src/,utils eap_common eap_peer eap_server crypto) $(HERE)
settings := -DIEEE8021X_EAPOL -DEAP_PSK -DEAP_GPSK -DEAP_GPSK_SHA256 -DEAP_SERVER -DEAP_SERVER_IDENTITY \
	-DEAP_SERVER_PSK -DEAP_SERVER_GPSK -DCONFIG_NO_STDOUT_DEBUG -DCONFIG_NO_WPA_MSG -DCONFIG_NO_RANDOM_POOL \
	-DCONFIG_SHA256 -DCONFIG_NO_CONFIG_BLOBS -DCONFIG_CRYPTO_INTERNAL -ffunction-sections \
	-I$(SOURCE)/src -I$(SOURCE)/src/utils -I$(HERE) -I$(HERE)/..
$(theirs): flags := -w $(settings)
# (their random octets come from pairs.c, so that a run can be repeated)
os_unix.o: flags += -Dos_get_random=os_get_random_unused
# (a callback has parameters that it doesn't read)
$(between): flags := -Wall -Werror $(settings)
$(ours): flags := -std=c11 -Wall -Wextra -Werror -I$(HERE)/..

%.o: %.c
	$(CC) -O2 $(flags) -c $< -o $@

# (the library's methods have a name beside theirs)
name_47 := psk
name_51 := gpsk
peer_%.o: peer_method.c
	$(CC) -O2 $(flags) -DMETHOD=$* -Deap_peer_$(name_$*)_register=our_peer_$(name_$*)_register -c $< -o $@
server_%.o: server_method.c
	$(CC) -O2 $(flags) -DMETHOD=$* -Deap_server_$(name_$*)_register=our_server_$(name_$*)_register -c $< -o $@
