/*
A configuration of Etsy's statsd, as an example of what contrib/from-etsy reads.
*/
{
  graphiteHost: "graphite.example.com"
, graphitePort: 2003
, port: 8125
, mgmt_port: 8126 // admin commands
, backends: [ "./backends/graphite", './backends/console', "./backends/repeater", "statsd-influxdb-backend" ]
, repeater: [ { host: '10.10.10.10', port: 8125 } ]
, repeaterProtocol: "udp4"
, flushInterval: 10000
, percentThreshold: [ 50, 95, 99.9 ]
, deleteIdleStats: true
, deleteGauges: false
, gaugesMaxTTL: 1
, histogram: [ { metric: 'render', bins: [ 0.01, 0.1, 1, 10, 'inf' ] }, { metric: '', bins: [] } ]
, calculatedTimerMetrics: [ 'count', 'median', 'upper_percent', 'histogram' ]
, console: { prettyprint: false }
, log: { backend: 'syslog', level: 'LOG_INFO', }
, keyFlush: { interval: 60000, percent: 50 }
, dumpMessages: true
, healthStatus: 'up'
, graphite: { legacyNamespace: false, globalPrefix: "stats.eu", globalSuffix: "" }
}
