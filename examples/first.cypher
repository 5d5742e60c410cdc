CREATE (n:Service {name: 'mail', port: 25}) RETURN n;
CREATE (n:Service {name: 'web'}) RETURN id(n);
MATCH (n:Service) RETURN n, n.port AS port;
