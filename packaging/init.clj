;; Leiningen refuses addresses without TLS. This lets it ask one, as mvnrepod on its own machine. For ~/.lein/init.clj.
(require 'cemerick.pomegranate.aether)
(cemerick.pomegranate.aether/register-wagon-factory! "http" #(eval '(org.apache.maven.wagon.providers.http.HttpWagon.)))
