-- Compares the names of users octet by octet in MariaDB, whose own columns take ERIN, and erin with a blank, for erin.
ALTER TABLE radcheck MODIFY username VARCHAR(64) COLLATE utf8mb4_nopad_bin NOT NULL DEFAULT '';
ALTER TABLE radreply MODIFY username VARCHAR(64) COLLATE utf8mb4_nopad_bin NOT NULL DEFAULT '';
ALTER TABLE radusergroup MODIFY username VARCHAR(64) COLLATE utf8mb4_nopad_bin NOT NULL DEFAULT '';
