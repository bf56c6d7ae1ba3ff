/* SPDX-License-Identifier: Apache-2.0 */
/* The places of all fields but `reserved`, as the library reads and writes them. */
#include "shelfpigeon.h"

#define AT(type, field, place) _Static_assert(offsetof(type, field) == (place), #type "." #field)
#define HAS(type, bytes) _Static_assert(sizeof(type) == (bytes), #type)

AT(pigeon_options, size, 0);
AT(pigeon_options, local_port, 8);
AT(pigeon_options, remote_port, 10);
AT(pigeon_options, announced_maximum_incoming_streams, 12);
AT(pigeon_options, announced_maximum_outgoing_streams, 14);
AT(pigeon_options, default_stream_priority, 16);
AT(pigeon_options, checksum, 18);
AT(pigeon_options, mtu, 20);
AT(pigeon_options, max_message_size, 24);
AT(pigeon_options, max_receiver_window_buffer_size, 28);
AT(pigeon_options, max_send_buffer_size, 32);
AT(pigeon_options, per_stream_send_queue_limit, 36);
AT(pigeon_options, total_buffered_amount_low_threshold, 40);
AT(pigeon_options, default_stream_buffered_amount_low_threshold, 44);
AT(pigeon_options, cwnd_mtus_initial, 48);
AT(pigeon_options, cwnd_mtus_min, 52);
AT(pigeon_options, avoid_fragmentation_cwnd_mtus, 56);
AT(pigeon_options, immediate_sack_under_cwnd_mtus, 60);
AT(pigeon_options, max_burst, 64);
AT(pigeon_options, max_retransmissions, 68);
AT(pigeon_options, max_init_retransmits, 72);
AT(pigeon_options, zero_checksum_method, 76);
AT(pigeon_options, flags, 80);
AT(pigeon_options, max_held_fragments, 84);
AT(pigeon_options, rtt_max, 88);
AT(pigeon_options, rto_initial, 96);
AT(pigeon_options, rto_max, 104);
AT(pigeon_options, rto_min, 112);
AT(pigeon_options, t1_init_timeout, 120);
AT(pigeon_options, t1_cookie_timeout, 128);
AT(pigeon_options, t2_shutdown_timeout, 136);
AT(pigeon_options, max_timer_backoff_duration, 144);
AT(pigeon_options, heartbeat_interval, 152);
AT(pigeon_options, delayed_ack_max_timeout, 160);
AT(pigeon_options, min_rtt_variance, 168);
HAS(pigeon_options, 176);

AT(pigeon_metrics, size, 0);
AT(pigeon_metrics, tx_packets_count, 8);
AT(pigeon_metrics, tx_messages_count, 16);
AT(pigeon_metrics, rtx_packets_count, 24);
AT(pigeon_metrics, rtx_bytes_count, 32);
AT(pigeon_metrics, cwnd_bytes, 40);
AT(pigeon_metrics, srtt, 48);
AT(pigeon_metrics, unack_data_count, 56);
AT(pigeon_metrics, rx_packets_count, 64);
AT(pigeon_metrics, rx_messages_count, 72);
AT(pigeon_metrics, peer_rwnd_bytes, 80);
AT(pigeon_metrics, peer_implementation, 84);
AT(pigeon_metrics, negotiated_maximum_incoming_streams, 88);
AT(pigeon_metrics, negotiated_maximum_outgoing_streams, 90);
AT(pigeon_metrics, uses_message_interleaving, 92);
AT(pigeon_metrics, uses_zero_checksum, 93);
HAS(pigeon_metrics, 96);

AT(pigeon_event, size, 0);
AT(pigeon_event, kind, 8);
AT(pigeon_event, error, 12);
AT(pigeon_event, stream, 16);
AT(pigeon_event, cause, 20);
AT(pigeon_event, lifecycle, 24);
AT(pigeon_event, length, 32);
HAS(pigeon_event, 40);

AT(pigeon_send_options, size, 0);
AT(pigeon_send_options, flags, 8);
AT(pigeon_send_options, max_retransmissions, 12);
AT(pigeon_send_options, lifetime, 16);
AT(pigeon_send_options, lifecycle, 24);
HAS(pigeon_send_options, 32);

AT(pigeon_message, stream, 0);
AT(pigeon_message, ppid, 4);
AT(pigeon_message, length, 8);
HAS(pigeon_message, 16);

AT(pigeon_outgoing, stream, 0);
AT(pigeon_outgoing, ppid, 4);
AT(pigeon_outgoing, payload, 8);
AT(pigeon_outgoing, length, 16);
HAS(pigeon_outgoing, 24);

AT(pigeon_given_up, number, 0);
AT(pigeon_given_up, cause, 4);
AT(pigeon_given_up, retransmissions, 8);
HAS(pigeon_given_up, 12);

AT(pigeon_channels_options, size, 0);
AT(pigeon_channels_options, role, 8);
AT(pigeon_channels_options, max_message_size, 12);
AT(pigeon_channels_options, peer_max_message_size, 16);
AT(pigeon_channels_options, max_buffered_amount, 20);
AT(pigeon_channels_options, max_kept_bytes, 24);
HAS(pigeon_channels_options, 32);

AT(pigeon_channel_options, size, 0);
AT(pigeon_channel_options, flags, 8);
AT(pigeon_channel_options, max_retransmissions, 12);
AT(pigeon_channel_options, lifetime, 16);
AT(pigeon_channel_options, priority, 20);
HAS(pigeon_channel_options, 24);

AT(pigeon_channel_statistics, size, 0);
AT(pigeon_channel_statistics, messages_sent, 8);
AT(pigeon_channel_statistics, bytes_sent, 16);
AT(pigeon_channel_statistics, messages_received, 24);
AT(pigeon_channel_statistics, bytes_received, 32);
HAS(pigeon_channel_statistics, 40);
