"""Attributes of FreeRADIUS's dictionaries that hold passwords, keys or what answers for them, though no mark tells of it
and their names do not end as most such names do."""

NAMES = frozenset("""
    3GPP2-S-Key Acc-Ace-Token Alc-BGP-Auth-Key Altiga-Partitioning-Mobile-IP-Key Aptilo-Key-Octets-1
    Aptilo-Key-String-1 Aptilo-Opaque-Key ARAP-Challenge-Response Aruba-AS-Credential-Hash
    Aruba-Network-SSO-Token ASA-WebVPN-Storage-Key Ascend-Ara-PW Ascend-Session-Svr-Key Ascend-User-Acct-Key
    CHAP-Challenge CVPN3000-Partition-Mobile-IP-Key CW-ARQ-Token CW-LRQ-Token Digest-HA1 Digest-Response
    Digest-Response-Auth EAP-Pwd-Password-Hash EAP-Pwd-Password-Salt EAP-Sim-KC1 EAP-Sim-KC2 EAP-Sim-KC3
    EAP-Sim-KEY EAP-Sim-Ki EAP-Sim-SRES1 EAP-Sim-SRES2 EAP-Sim-SRES3 Ericsson-ViG-Digest-Response
    ERX-Mobile-IP-Key IPU-MIP-Key ITK-Users-Default-Pw Lucent-Ara-PW Lucent-Session-Svr-Key
    Lucent-User-Acct-Key Manzara-ECP-Session-Key Mikrotik-Wireless-Enc-Key Mikrotik-Wireless-MPKey
    Mimosa-ManagementPassword-Parameter MS-CHAP-Challenge MS-CHAP-CPW-1 MS-CHAP-CPW-2 MS-CHAP-LM-Enc-PW
    MS-CHAP-NT-Enc-PW MS-CHAP-Peer-Challenge MS-CHAP-Response MS-CHAP2-CPW MS-CHAP2-Response MS-CHAP2-Success
    Password-With-Header PKM-Auth-Key Prosoft-Security-Key Ruckus-CP-Token SG-Eds-Enc-Key Sky-Wifi-Credentials
    Telkom-Degrade-Token TOTP-Key TP-TLS-Pre-Shared-Key USR-Pre-Shared-MN-Key USR-VTS-Session-Key
    Waverider-Authentication-Key WiMAX-SIM-Ki X-Ascend-Ara-PW X-Ascend-Session-Svr-Key X-Ascend-User-Acct-Key
    Yubikey-Key Yubikey-OTP Yubikey-Private-ID
""".split())
